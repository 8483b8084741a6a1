# The tests of 'run', for tests/cli.sh. What each beat must print was worked out by hand.
# shellcheck shell=bash
# shellcheck disable=SC2034,SC2154 # tests/lib.sh uses and makes what stands here
# shellcheck disable=SC2046 # 'times' prints words to split
program=${RUN:-$PWD/target/bin/run} name=run crate=run
recording=()
lines=''

# fine DESIGN SET READINGS: the documents are taken, and there are no beats.
fine() { expect 0 '' '' "$program" "$@"; }

# readings READING..: the bytes of a recording. Each three readings, of the sensors 0, 1, 2 and two
# bytes long, low byte first, have three zero bytes after them.
readings() {
  local hex escapes='' value count=0
  for value; do
    printf -v hex %04x $((value & 0xffff))
    escapes+="\x${hex:2}\x${hex:0:2}"
    if ((++count % 3 == 0)); then escapes+='\x00\x00\x00'; fi
  done
  printf %b "$escapes"
}

# beats COUNT LINE READING..: so many beats alike go on the recording, each of which is to print
# LINE. The readings are three for number 0, of the sensors 0, 1 and 2, three for number 1 ..
beats() {
  local i
  for ((i = 0; i < $1; i++)); do
    recording+=("${@:3}")
    lines+=${lines:+$'\n'}$2
  done
}

# agree LINE READING..: one beat, with one reading for each number that all three sensors have.
agree() { beats 1 "$1" $(for value in "${@:2}"; do times 3 "$value"; done); }

# alone COUNT LINE SENSOR NUMBER READING: beats of two numbers at which one sensor has one reading,
# and all else is 0.
alone() {
  local all=(0 0 0 0 0 0)
  all[3 * $4 + $3]=$5
  beats "$1" "$2" "${all[@]}"
}

# orders LINE READING READING READING REST..: six beats, with the readings of number 0 in all their
# orders, and REST for the other numbers.
orders() {
  beats 1 "$1" "$2" "$3" "$4" "${@:5}"
  beats 1 "$1" "$2" "$4" "$3" "${@:5}"
  beats 1 "$1" "$3" "$2" "$4" "${@:5}"
  beats 1 "$1" "$3" "$4" "$2" "${@:5}"
  beats 1 "$1" "$4" "$2" "$3" "${@:5}"
  beats 1 "$1" "$4" "$3" "$2" "${@:5}"
}

# play NAME: the recording, run on the base's design and set, prints its lines. Another one begins.
play() {
  readings "${recording[@]}" >"$dir/$1.readings"
  at 2 "$dir/$1.readings" expect 0 "$lines" '' "$program" ||
    { echo "$lines" | diff - "$dir/stdout" | sed '5,$d'; }
  recording=()
  lines=''
}

# law OVER_LAW NOISE K..: makes the base a design of as many numbers as there are k, and a set.
law() {
  local n=$(($# - 2))
  base=("$dir/law.design" "$dir/law.set" "$dir/none.readings")
  bytes_of $n 100 1 $(times $((n * n + 2 * n)) 1) "$1" "${@:3}" $(times $n "$2") >"${base[0]}"
  bytes_of 1 $(times $n 0) 1 >"${base[1]}"
}

# summary COMMAND..: its lines, each with how often it comes on end, and its status.
summary() ( set -o pipefail && "$@" | uniq -c )

# with_byte FILE PLACE VALUE: makes a copy with one byte replaced and prints its name.
with_byte() {
  cp "$1" "$1,byte$2=$3"
  printf %b "\x$(printf %02x "$3")" |
    dd of="$1,byte$2=$3" bs=1 seek="$2" conv=notrunc status=none
  echo "$1,byte$2=$3"
}

: >"$dir/none.readings"
documents=("${head[@]}" "$dir/none.readings")
base=("${documents[@]}")

committed "${head[@]}"
wrong_calls 'usage: run DESIGN SET READINGS'
cannot_open missing "$(with "$design" 0 7)" "$dir/missing" "$(sized "$design" 7)"
cannot_open missing "$dir/missing" "$dir/missing" "$dir/missing"

# No beats, no lines.
fine "${base[@]}"

# The worked head answers -(2 y0 + 7 y1) / 2: whole ones, in the set, past the limit of 110 and at
# the edge of the readings.
agree 0 0 0
agree -1 1 0
agree 1 -1 0
agree -21 21 0
agree -28 0 8
agree -49 21 8
agree 49 -21 -8
agree 7 21 -8
agree -110 110 0
agree -111 111 0
agree 111 -111 0
agree -30000 30000 0
agree 105000 0 -30000
agree -135000 30000 30000
agree 135000 -30000 -30000
agree 75000 30000 -30000
play head

# Ties go to the even one, from both sides and below 0 too: 0.5, 1.5, 2.5, 3.5, 4.5, 10.5, 11.5.
agree 0 3 -1
agree 0 -3 1
agree 2 2 -1
agree -2 -2 1
agree 2 1 -1
agree -2 -1 1
agree 4 0 -1
agree -4 0 1
agree 4 -1 -1
agree -4 1 1
agree 10 0 -3
agree -10 0 3
agree 12 -1 -3
agree -12 1 3
play ties

# Thirds have no ties; fourths have some, which are not what is cut off or rounded up.
law 3 0 1
agree 0 1
agree -1 2
agree -1 3
agree -1 4
agree -2 5
agree 0 -1
agree 1 -2
agree 1 -3
agree 1 -4
agree 2 -5
agree -10000 30000
play thirds
law 4 0 -1
agree 0 1
agree 0 2
agree 1 3
agree 1 5
agree 2 6
agree 2 7
agree 2 9
agree 2 10
agree 3 11
agree 0 -1
agree 0 -2
agree -1 -3
agree -1 -5
agree -2 -6
agree -2 -7
agree -2 -9
agree -2 -10
agree -3 -11
play fourths
law 1000 0 -1
agree 0 499
agree 0 500
agree 1 501
agree 1 1499
agree 2 1500
agree 2 2500
agree 3 2501
agree 0 -499
agree 0 -500
agree -1 -501
agree -2 -1500
agree -2 -2500
agree -3 -2501
agree 30 30000
play thousandths
law 1000 0 0
agree 0 30000
agree 0 -30000
play nothing

# Each number has its own k, in their order; and the largest answers that there are.
law 1 0 1 2 4 8 16 32
agree -1 1 0 0 0 0 0
agree -2 0 1 0 0 0 0
agree -4 0 0 1 0 0 0
agree -8 0 0 0 1 0 0
agree -16 0 0 0 0 1 0
agree -32 0 0 0 0 0 1
agree 63 -1 -1 -1 -1 -1 -1
agree -21 1 0 1 0 1 0
play each_k
law 1 1000 2000 2000 2000 2000 2000 2000
agree -360000000 $(times 6 30000)
agree 360000000 $(times 6 -30000)
agree 0 30000 -30000 30000 -30000 30000 -30000
play largest
law 1000 1000 -2000 -2000 -2000 -2000 -2000 -2000
agree 360000 $(times 6 30000)
agree -360000 $(times 6 -30000)
agree -12 $(times 6 -1)
play smallest

# The middle of three, in all orders and with equal ones among them. It is not their mean, and not
# the middle one by place. No sensor is bad, since each is the middle one time and again.
law 1 0 1
orders -2 -7 2 30
orders 5 -5 -30 100
orders -5 5 5 9
orders -5 5 5 1
orders 5 -5 -5 9
orders -5 5 5 5
orders 0 -30000 0 30000
orders 30000 -30000 -30000 30000
orders -30000 30000 30000 -30000
orders 256 -256 -257 255 # low bytes and high ones stand in different orders
orders -128 128 127 129
play middles
# Of each number by itself: sensor 0 is the middle one of number 0 (-3), sensor 2 of number 1 (2).
base=("${documents[@]}")
beats 1 -4 -3 -9 8 -40 90 2
play middles_apart

# Of one sensor, number and side: at twice the noise (2 and 1) it does not differ, one past that it
# does. 39 beats are borne, a beat without a difference begins the count again, the 40th calls the
# sensor bad, and it stays so: while it differs, when it does not, and when it does again. The
# middle is still that of all three.
for sensor in 0 1 2; do
  for number in 0 1; do
    for side in 1 -1; do
      near=$((side * (number == 0 ? 4 : 2)))
      far=$((near + side))
      alone 41 0 $sensor $number $near
      alone 39 0 $sensor $number $far
      alone 1 0 $sensor $number $near
      alone 39 0 $sensor $number $far
      alone 2 "0 bad $sensor" $sensor $number $far
      alone 2 "0 bad $sensor" $sensor $number $near
      alone 1 "0 bad $sensor" $sensor $number $far
      agree "0 bad $sensor" 0 0
      orders "-10 bad $sensor" -20 10 30 0 0 0
      play "sensor$sensor,number$number,by$far"
    done
  done
done

# The difference is from the middle, not from 0 nor from another sensor: here -1 from 4 is one too
# far, 0 from 4 is not, and 3 may be 3 from both 0 and 6. The middle need not be the same each beat.
beats 41 -4 0 4 4 0 0 0
beats 41 -3 0 3 6 0 0 0
beats 39 -4 -1 4 4 0 0 0
beats 1 -204 200 204 204 0 0 0
beats 39 -204 199 204 204 0 0 0
beats 1 '-4 bad 0' -1 4 4 0 0 0
play from_the_middle

# Any of the numbers will do, and either side, one beat after the other.
for ((i = 0; i < 13; i++)); do
  alone 1 0 1 0 5
  alone 1 0 1 1 -3
  alone 1 0 1 0 -5
done
alone 1 '0 bad 1' 1 1 3
play by_turns

# The count ends at 40, or else 300 beats would be more than one byte holds.
alone 39 0 2 0 30000
alone 300 '0 bad 2' 2 0 30000
agree '0 bad 2' 0 0
play on_and_on

# Two sensors that differ as long are bad at one beat; three too; and each by its own count.
beats 39 0 -5 0 5 0 0 0
beats 2 '0 bad 0 2' -5 0 5 0 0 0
play two_at_once
beats 39 0 -5 0 5 0 3 0
beats 2 '0 bad 0 1 2' -5 0 5 0 3 0
agree '0 bad 0 1 2' 0 0
play three_at_once
beats 1 0 0 0 5 0 0 0
beats 1 0 -5 0 5 0 0 0
beats 37 0 -5 0 5 0 3 0
beats 1 '0 bad 2' -5 0 5 0 3 0
beats 1 '0 bad 0 2' -5 0 5 0 3 0
beats 1 '0 bad 0 1 2' -5 0 5 0 3 0
play one_by_one
beats 39 0 0 5 0 0 0 0  # sensor 1 differs
beats 39 -5 5 5 0 0 0 0 # with the same reading it does not, and sensor 2 does
beats 39 -5 0 5 5 0 0 0 # sensor 0
play in_turn

# Noise of 0 and of 1000, where one more is seen.
law 1 0 1
beats 39 -7 7 7 8
beats 1 '-7 bad 2' 7 7 6
agree '-7 bad 2' 7
play no_noise
law 1 1000 1
beats 41 0 0 2000 0
beats 41 0 0 -2000 0
beats 39 0 0 2001 0
beats 1 '0 bad 1' 0 -2001 0
play most_noise

# One sensor outside differs, however near the middle is, and the answer is the middle of all three.
# At 30,000 nothing is outside.
beats 41 -29000 30000 29000 29000
beats 41 29000 -29000 -29000 -30000
beats 41 -30000 30000 30000 30000
beats 39 -30000 30001 30000 30000
beats 1 '-30000 bad 0' 30001 30000 30000
play outside_above
beats 39 30000 -30000 -30001 -30000
beats 1 '30000 bad 1' -30000 -30001 -30000
play outside_below
for value in 30001 32767; do # above, so that the middle is the larger of the other two
  beats 39 -2 1 2 $value
  beats 1 '-2 bad 2' 1 2 $value
  play "outside$value"
done
for value in -30001 -32768; do # below, so that it is the smaller one
  beats 39 -1 1 2 $value
  beats 1 '-1 bad 2' 1 2 $value
  play "outside$value"
done
base=("${documents[@]}")
beats 10 0 30001 0 0 0 0 0
beats 10 0 0 0 0 -32768 0 0
beats 10 0 30001 0 0 -30001 0 0 # in both numbers, which is still one sensor
beats 9 0 30001 0 0 0 0 0
beats 1 '0 bad 0' 30001 0 0 0 0 0
play outside_one
beats 39 0 30001 0 0 0 3 0 # sensor 0 outside, and sensor 1 too far from the middle of number 1
beats 1 '0 bad 0 1' 30001 0 0 0 3 0
play outside_and_far

# Two or three sensors outside, in whichever numbers: the first of them by sensor, then by number.
beats 1 'refused 9 at 0' 30001 30001 0 0 0 0
beats 1 'refused 9 at 0' 30001 -30001 0 0 0 0
beats 1 'refused 9 at 0' -32768 0 32767 0 0 0
beats 1 'refused 9 at 8' 0 30001 30001 0 0 0
beats 1 'refused 9 at 1' 0 30001 0 30001 0 0
beats 1 'refused 9 at 9' 0 0 -32768 0 32767 0
beats 1 'refused 9 at 1' 0 0 30001 -30001 0 30001
beats 1 'refused 9 at 0' 30001 0 0 30001 30001 0
beats 1 'refused 9 at 8' 0 30001 0 0 30001 30001
beats 1 'refused 9 at 0' 30001 30001 30001 30001 30001 30001
beats 1 'refused 9 at 1' 0 0 0 -30001 30001 -30001
beats 1 'refused 9 at 0' -30001 0 0 0 -30001 30001
agree -1 1 0
beats 1 'refused 9 at 8' 0 30001 30001 0 0 0
play refused_beats

# A refused beat is none for the alarms: it neither counts nor begins a count again, and says
# nothing of a sensor that is bad.
alone 39 0 0 0 5
beats 3 'refused 9 at 8' 0 30001 30001 0 0 0
alone 1 '0 bad 0' 0 0 5
beats 1 'refused 9 at 0' 30001 30001 0 0 0 0
agree '0 bad 0' 0 0
play refused_amid
beats 45 'refused 9 at 0' 30001 0 30001 0 0 0
beats 39 0 30001 0 0 0 0 0
beats 1 'refused 9 at 0' 30001 0 30001 0 0 0
agree 0 0 0
alone 39 0 0 0 5
alone 1 '0 bad 0' 0 0 5
play refused_first
beats 39 0 -5 0 5 0 0 0
beats 1 'refused 9 at 0' 30001 30001 30001 0 0 0
beats 1 '0 bad 0 2' -5 0 5 0 0 0
play refused_amid_two

# Every place that a refused beat of six numbers may have, with every other reading outside that
# leaves it the first. Two sensors must be outside, so that the first is sensor 0 or 1.
law 1 0 1 2 4 8 16 32
for sensor in 0 1; do
  for number in 0 1 2 3 4 5; do
    for ((other = sensor + 1; other < 3; other++)); do
      for late in 0 1 2 3 4 5; do
        all=(0 0 0 0 0 0 0 0 0 0 0 0 0 0 0 0 0 0)
        all[3 * number + sensor]=30001
        all[3 * late + other]=-30001
        beats 1 "refused 9 at $((8 * sensor + number))" "${all[@]}"
      done
    done
  done
done
agree -63 1 1 1 1 1 1
play places

# One number: a beat is nine bytes, and the places are 0 and 8.
law 2 0 1
agree 0 1
beats 1 'refused 9 at 0' 30001 0 30001
beats 1 'refused 9 at 8' 30000 30001 30001
agree -2 3
play one_number

# The sizes at their edges, with all other numbers at their edges too.
for n in 1 6; do
  for faces in 1 24; do
    uniform_head $n $faces 1 1 -2000 1 1 0 -100 0
    agree $((n * 2000)) $(times $n 1)
    play "lowest$n,$faces"
    uniform_head $n $faces 30000 1000 2000 1000000 1000 1000 100 3000000
    agree $((n * -2)) $(times $n 1)
    play "highest$n,$faces"
    base[2]=$dir/none.readings
    outside 0 $((3 + n * n + 4 * n)) -1
    outside 1 $((faces * (n + 1))) -1
    lengths_at 0 right-1 right+1
    lengths_at 1 right-1 right+1
  done
done

# One number of the design or the set at and past its edges, with no beats and with some.
base=("${documents[@]}")
edges_of_head
three=$dir/three.readings
readings 1 2 3 4 5 6 7 8 9 10 11 12 13 14 15 16 17 18 >"$three"
base[2]=$three
outside 0 0 0 7
outside 0 15 -1 1001
outside 1 0 0 25
outside 1 12 -1 3000001

# Wrong lengths. The readings' is a whole number of beats, of 18 bytes here; where it is not, the
# place is the length. Three beats answer -(2 2 + 7 5) / 2 = -19.5, -(2 8 + 7 11) / 2 = -46.5 and
# -(2 14 + 7 17) / 2 = -73.5; the zeros that follow are a fourth.
lengths_at 0 0 1 7 8 right-8 right-1 right+1 right+8
lengths_at 1 0 1 7 8 right-8 right-1 right+1 right+8
for length in 1 6 8 9 10 17 19 27 35 37 45 53 55 63 71; do
  at 2 "$(sized "$three" $length)" refuses 1 $length
done
beats 1 -20
beats 1 -46
for length in 36 54 72; do
  at 2 "$(sized "$three" $length)" expect 0 "$lines" '' "$program"
  beats 1 "$((length == 36 ? -74 : 0))"
done
lines=''
# An n that is in its range but not that of the bytes: 72 of them are right for 1, 200 for 3.
at 0 "$(with "$design" 0 1)" refuses 1 72
at 0 "$(with "$design" 0 3)" refuses 1 128
at 1 "$(with "$set" 0 3)" refuses 1 80
at 1 "$(with "$set" 0 5)" refuses 1 104

# The padding: each of its bytes, first and last and between; the first of several; what stands
# beside it is a reading, which may hold anything.
for place in 6 7 8 15 16 17 24 26 33 34 35 42 43 44 51 52 53; do
  at 2 "$(with_byte "$three" $place 1)" refuses 1 $place
done
for value in 128 255; do at 2 "$(with_byte "$three" 52 $value)" refuses 1 52; done
at 2 "$(with_byte "$(with_byte "$three" 44 1)" 24 255)" refuses 1 24
at 2 "$(with_byte "$(with_byte "$three" 7 1)" 8 255)" refuses 1 7
at 2 "$(with_byte "$three" 53 1)" refuses 1 53
# Here sensor 2 reads 255 256 + 15, which is -241, and sensor 0 reads 255 256 + 10, which is -246:
# the middle of 13, 14, -241 is 13, and of -246, 11, 12 it is 11 as before.
at 2 "$(with_byte "$three" 41 255)" expect 0 $'-20\n-46\n-72' '' "$program"
at 2 "$(with_byte "$three" 28 255)" expect 0 $'-20\n-46\n-74' '' "$program"

# Two faults: lengths come before padding before ranges, the design before the set before the
# readings, and in one document the first byte before the later ones.
wrong=("$(with "$design" 15 -1)" "$(with "$set" 12 -1)" "$(with_byte "$three" 52 1)")
refuses 1 127 "$(sized "$design" 127)" "$(sized "$set" 103)" "$(sized "$three" 53)"
refuses 1 103 "${wrong[0]}" "$(sized "$set" 103)" "$(sized "$three" 53)"
refuses 1 103 "${wrong[0]}" "$(sized "$set" 103)" "${wrong[2]}"
refuses 1 104 "$design" "$(sized "$set" 105)" "${wrong[2]}"
refuses 1 53 "${wrong[@]:0:2}" "$(sized "${wrong[2]}" 53)"
refuses 1 55 "${wrong[@]:0:2}" "$(sized "${wrong[2]}" 55)"
refuses 1 52 "${wrong[@]}"
refuses 1 52 "${wrong[0]}" "$set" "${wrong[2]}"
refuses 1 52 "$design" "${wrong[@]:1}"
refuses 2 120 "${wrong[@]:0:2}" "$three"
refuses 3 96 "$design" "${wrong[1]}" "$three"
at 0 "$(with "${wrong[0]}" 1 0)" refuses 2 8
at 1 "$(with "${wrong[1]}" 1 101)" refuses 3 8
at 0 "$(with "$design" 2 1001)" refuses 2 16                # over, then off
at 0 "$(with "$(with "$design" 9 49)" 3 2001)" refuses 2 24 # a, then off
at 0 "$(with "$(with "$design" 9 49)" 11 0)" refuses 2 72   # off, then over-law

# An n out of range: eight bytes are asked of the design and of the set, nothing of the readings.
for n in 0 7; do
  base[0]=$(with "$design" 0 $n)
  lengths_at 0 0 7
  lengths_at 1 0 7
  for place in 0 1; do
    for length in 8 9 1000; do at $place "$(sized "${base[place]}" $length)" refuses 2 0; done
  done
  for length in 0 1 53 55 1000; do at 2 "$(sized "$three" $length)" refuses 2 0; done
  at 2 "${wrong[2]}" refuses 2 0
  refuses 2 0 "$(with "${base[0]}" 1 0)" "$(with "$set" 0 25)" "$(sized "${wrong[2]}" 53)"
  refuses 1 7 "${base[0]}" "$(sized "$set" 7)" "$(sized "$three" 53)"
done
# Nor of the other two documents where the design's first number is cut.
refuses 1 7 "$(sized "$design" 7)" "$(sized "$set" 6)" "$(sized "$three" 53)"

# A count out of range: eight bytes are asked of the set; the design and the readings come first.
for count in 0 25; do
  base=("$design" "$(with "$set" 0 $count)" "$three")
  lengths_at 1 0 7
  for length in 8 9 1000; do at 1 "$(sized "${base[1]}" $length)" refuses 3 0; done
  at 0 "$(sized "$design" 129)" refuses 1 128
  at 0 "${wrong[0]}" refuses 2 120
  at 2 "$(sized "$three" 53)" refuses 1 53
  at 2 "${wrong[2]}" refuses 1 52
  refuses 1 52 "${wrong[0]}" "${base[1]}" "${wrong[2]}"
  refuses 3 0 "$design" "$(with "${base[1]}" 1 101)" "$three"
done

# Empty files, alone and together.
base=("${documents[@]}")
empty=$dir/none.readings
for place in 0 1; do at $place "$empty" refuses 1 0; done
refuses 1 0 "$empty" "$empty" "$empty"

# A megabyte of noise in each place: sizes out of range, then a size of 2 and zeros. As readings it
# has four bytes too many for whole beats; without them zeros are 58,254 beats, each of which
# answers 0, and of the other noise the first padding byte is refused.
for noise in "$dir/zeros" "$dir/pattern"; do
  at 0 "$noise" refuses 2 0
  at 1 "$noise" refuses 3 0
  at 2 "$noise" refuses 1 1048576
  refuses 2 0 "$noise" "$noise" "$noise"
done
at 0 "$(with "$dir/zeros" 0 2)" refuses 1 128
at 1 "$(with "$dir/zeros" 0 2)" refuses 1 56
at 2 "$(sized "$dir/pattern" 1048572)" refuses 1 6
at 2 "$(sized "$dir/zeros" 1048572)" expect 0 '*( )58254 0' '' summary "$program"

# Random bytes: any answer, but an answer. Random readings: a line of one of the forms each beat.
for file in "${documents[@]}"; do head -c 1000 /dev/urandom >"$file.random"; done
expect 1 'refused [12] at +([0-9])' '' "$program" "${documents[@]/%/.random}"
at 1 "$set.random" expect 1 'refused [13] at +([0-9])' '' "$program"
head -c 1800 /dev/urandom >"$dir/random"
at 2 "$dir/random" expect 1 'refused 1 at +([0-9])' '' "$program"
readings $(od -An -v -td2 -N 12000 /dev/urandom) >"$dir/random.readings"
forms() ( set -o pipefail && "$@" |
  sed -E 's/^(-?[0-9]+( bad( 0)?( 1)?( 2)?)?|refused 9 at [0189])$/line/' | uniq -c )
at 2 "$dir/random.readings" expect 0 '*( )1000 line' '' forms "$program"
