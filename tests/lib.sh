# What the parts of tests/cli.sh share. A part sets 'program', what it drives, 'name', what that
# calls itself, and 'crate', where it is; 'base', three documents; and 'fine DOCUMENT..', that
# documents are taken.
# shellcheck shell=bash
# shellcheck disable=SC2034 # the parts use what stands here
# shellcheck disable=SC2046,SC2053 # 'times' prints words to split, 'expect' takes patterns
# shellcheck disable=SC2154 # 'program', 'name', 'crate' and 'base' are the part's
passed=0
failed=0
dir=$(mktemp -d) || exit 1
trap 'rm -rf "$dir"' EXIT

# expect STATUS STDOUT STDERR COMMAND..: what the command ends with and writes. The three are
# patterns, the last two of them of whole lines, or '' for nothing at all.
expect() {
  local status=$1 out=${2:+$2$'\n'} err=${3:+$3$'\n'} got_out got_err got
  shift 3
  "$@" >"$dir/stdout" 2>"$dir/stderr"
  got=$?
  IFS= read -r -d '' got_out <"$dir/stdout" # unlike $(..), this keeps the line ends
  IFS= read -r -d '' got_err <"$dir/stderr"
  # A * takes line ends too, so that the lines must be counted by themselves.
  if [[ $got == $status && $got_out == $out && $got_err == $err &&
    ${got_out//[!$'\n']/} == "${out//[!$'\n']/}" &&
    ${got_err//[!$'\n']/} == "${err//[!$'\n']/}" ]]; then
    passed=$((passed + 1))
  else
    failed=$((failed + 1))
    got_out=${got_out:0:100} got_err=${got_err:0:100} out=${out:0:100}
    printf 'FAILED: %s\n  status %s, wrote %s and %s\n  wanted %s, %s and %s\n' \
      "${*//"$dir/"/}" "$got" "${got_out@Q}" "${got_err@Q}" "$status" "${out@Q}" "${err@Q}"
    return 1
  fi
}

# What the program says of three documents: refuses NUMBER PLACE DOCUMENT..,
# cannot_open PATH DOCUMENT..; and of a call with wrong arguments, misused USAGE ARGUMENT..
refuses() { expect 1 "refused $1 at $2" '' "$program" "${@:3}"; }
cannot_open() { expect 1 '' "$name: *$1*" "$program" "${@:2}"; }
misused() { expect 1 '' "$1" "$program" "${@:2}"; }

# number VALUE: its eight bytes, low byte first. The sixteen digits that printf gives
# are those of the two's complement, so that a negative number needs nothing more.
number() {
  local hex escapes='' i
  printf -v hex %016x "$1"
  for i in 14 12 10 8 6 4 2 0; do escapes+="\x${hex:i:2}"; done
  printf %b "$escapes"
}

# bytes_of NUMBER..: the bytes of a document. times COUNT WORD..: the words repeated.
bytes_of() { local value && for value; do number "$value"; done; }
times() { local i && for ((i = 0; i < $1; i++)); do echo "${@:2}"; done; }

# with FILE INDEX VALUE: makes a copy with one number replaced and prints its name,
# which tells the change, so that a failed case can be understood.
with() {
  cp "$1" "$1,$2=$3"
  number "$3" | dd of="$1,$2=$3" bs=8 seek="$2" conv=notrunc status=none
  echo "$1,$2=$3"
}

# sized FILE LENGTH: likewise a copy that is cut, or filled up with zeros.
sized() { cp "$1" "$1,size$2" && truncate -s "$2" "$1,size$2" && echo "$1,size$2"; }

# at PLACE FILE COMMAND..: runs the command on the documents in 'base', with FILE for
# the one at PLACE: 0 the design, 1 the set, 2 the third.
at() {
  local files=("${base[@]}")
  files[$1]=$2
  "${@:3}" "${files[@]}"
}

# outside PLACE INDEX VALUE..: a number of the base is refused at each of the values.
outside() {
  local value
  for value in "${@:3}"; do
    at "$1" "$(with "${base[$1]}" "$2" "$value")" refuses $(($1 + 2)) $((8 * $2))
  done
}

# edges PLACE LOW HIGH INDEX..: numbers of the base, a head, are read at the edges of
# their range and refused past them, also where four of their bytes alone would do.
edges() {
  local place=$1 low=$2 high=$3 index
  for index in "${@:4}"; do
    at "$place" "$(with "${base[place]}" "$index" "$low")" fine
    at "$place" "$(with "${base[place]}" "$index" "$high")" fine
    outside "$place" "$index" $((low - 1)) $((high + 1)) $((low + 2 ** 32)) "${extremes[@]}"
  done
}

# edges_of_head: so are the first and the last number of each kind, of the design and the set.
edges_of_head() {
  local over
  base=("${head[@]:0:2}" "${base[2]}")
  outside 0 0 0 7 $((2 + 2 ** 32)) "${extremes[@]}"  # n
  edges 0 1 30000 1                                  # U
  edges 0 -2000 2000 3 6 7 8 12 13                   # a, b, k
  edges 0 50 1000000 9 10                            # off, from half of over
  edges 0 1 1000 11                                  # over-law
  edges 0 0 1000 14 15                               # noise
  outside 1 0 0 25 $((4 + 2 ** 32)) "${extremes[@]}" # the count of faces
  edges 1 -100 100 1 2 10 11                         # rows
  edges 1 0 3000000 3 12                             # tops

  # Half of over is rounded up, and twice an off may not overflow: here it would be 100.
  at 0 "$(with "$design" 2 101)" refuses 2 72
  outside 0 9 $((extremes[0] + 50))
  base[0]=$(with "$(with "$design" 9 500)" 10 500)
  edges 0 1 1000 2 # over
  for over in 1 101 1000; do
    base[0]=$(with "${base[0]}" 2 $over)
    edges 0 $(((over + 1) / 2)) 1000000 10
  done
  base[0]=$design
}

# lengths_at PLACE LENGTH..: a document of the base is refused at each; 'right' is its own length.
lengths_at() {
  local place=$1 right length
  right=$(stat -c %s "${base[place]}")
  for length in "${@:2}"; do
    length=$((length))
    at "$place" "$(sized "${base[place]}" $length)" refuses 1 $((length < right ? length : right))
  done
}

# uniform_head N FACES U OVER A_B_K OFF LAW NOISE ROW TOP: makes a design and a set of one value
# for each kind, and takes them as the first two documents of the base.
uniform_head() {
  local n=$1 faces=$2
  base[0]=$dir/uniform.design base[1]=$dir/uniform.set
  bytes_of "$n" "$3" "$4" $(times $((n * n + n)) "$5") $(times "$n" "$6") "$7" \
    $(times "$n" "$5") $(times "$n" "$8") >"${base[0]}"
  bytes_of "$faces" $(times "$faces" $(times "$n" "$9") "${10}") >"${base[1]}"
}

# committed FILE..: the files of these names that the gate runs the program on are the same.
committed() {
  local file
  for file; do
    expect 0 "$(od -An -v -tx1 -w1024 "$file")" '' \
      od -An -v -tx1 -w1024 "crates/$crate/data/${file##*/}"
  done
}

# wrong_calls USAGE: wrong numbers of arguments, where every file named is a good one of the base,
# so that only their count is wrong; then files that cannot be read, which come before whatever
# the other documents hold.
wrong_calls() {
  local count place
  for count in 0 1 2; do misused "$1" "${base[@]:0:count}"; done
  misused "$1" "${base[@]}" "${base[2]}"
  misused "$1" --help
  for place in 0 1 2; do
    at $place "$dir/missing" cannot_open missing
    at $place "$dir" cannot_open "${dir##*/}"
  done
  cannot_open missing "$(sized "$design" 7)" "$set" "$dir/missing"
}

extremes=(-9223372036854775808 9223372036854775807)

# The worked head: a state of two numbers, a set with four faces.
head=("$dir"/head.{design,set})
design=${head[0]} set=${head[1]}
bytes_of 2 110 100 90 20 0 95 0 10 50 50 2 2 7 2 1 >"$design"
bytes_of 4 1 0 21 -1 0 21 0 1 8 0 -1 8 >"$set"

# A megabyte of noise, of two kinds.
head -c 1048576 /dev/zero >"$dir/zeros"
tr '\0' '\245' <"$dir/zeros" >"$dir/pattern"
