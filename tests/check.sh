# The tests of 'check', for tests/cli.sh.
# shellcheck shell=bash
# shellcheck disable=SC2034,SC2154 # tests/lib.sh uses and makes what stands here
# shellcheck disable=SC2046 # 'times' prints words to split
program=${CHECK:-$PWD/target/bin/check} name=check crate=checking

# ok N FACES: the line for documents that can be read. reads N FACES DESIGN SET SHEET.
ok() { echo "read n $1 faces $2"; }
reads() { expect 0 "$(ok "$1" "$2")" '' "$program" "${@:3}"; }
fine() { reads 2 4 "$@"; }

# lengths LENGTH..: each document of the base is refused at each; 'right' is its own length.
lengths() { for place in 0 1 2; do lengths_at $place "$@"; done; }

# uniform N FACES U OVER A_B_K OFF LAW NOISE ROW TOP SCALE M_W_V: documents of one value
# for each kind are read, but not with a byte less or more, nor with a wrong last number.
uniform() {
  local n=$1 faces=$2 entries=$(($2 * ($2 + 2 + 2 * $1))) base=('' '' "$dir/uniform.sheet")
  uniform_head "${@:1:10}"
  bytes_of "${11}" $(times $entries "${12}") >"${base[2]}"
  reads "$n" "$faces" "${base[@]}"
  lengths right-1 right+1
  outside 0 $((3 + n * n + 4 * n)) -1
  outside 1 $((faces * (n + 1))) -1
  outside 2 $entries -1
}

sheet=$dir/head.sheet
bytes_of 1 180 0 40 0 0 180 0 40 0 20 120 0 20 0 0 120 \
  2 0 7 0 0 2 0 7 1 0 0 0 0 1 0 0 0 0 1 0 0 0 0 1 >"$sheet"
documents=("${head[@]}" "$sheet")
base=("${documents[@]}")

committed "${documents[@]}"
reads 2 4 "${documents[@]}"

wrong_calls 'usage: check DESIGN SET SHEET'

# One number at and past its edges.
edges_of_head
edges 2 1 100 0                      # scale
edges 2 0 500000000 1 16 17 24 25 40 # m, w, v

# Wrong lengths; and the edges of the sizes, with all other numbers at their edges too.
lengths 0 1 7 8 right-8 right-1 right+1 right+8
for n in 1 6; do
  for faces in 1 24; do
    uniform $n $faces 1 1 -2000 1 1 0 -100 0 1 0
    uniform $n $faces 30000 1000 2000 1000000 1000 1000 100 3000000 100 500000000
  done
done

# A size out of range, first n and then the count: no more than eight bytes are asked for
# where a length needs it, and what does not need it still comes in its order.
wrong=("$(with "$design" 15 -1)" "$(with "$set" 12 -1)" "$(with "$sheet" 40 -1)")
base[0]=$(with "$design" 0 7)
lengths 0 7
for place in 0 1 2; do
  for length in 8 1000; do at $place "$(sized "${base[place]}" $length)" refuses 2 0; done
done
refuses 1 7 "${base[0]}" "$(sized "$set" 7)" "$(sized "$sheet" 6)"
refuses 2 0 "$(with "${base[0]}" 1 0)" "$(with "$set" 0 25)" "$(with "$sheet" 0 0)"
base=("$design" "$(with "$set" 0 25)" "$sheet")
lengths 0 7
for place in 1 2; do
  for length in 8 1000; do at $place "$(sized "${base[place]}" $length)" refuses 3 0; done
done
at 0 "$(sized "$design" 129)" refuses 1 128
refuses 1 7 "${wrong[0]}" "${base[1]}" "$(sized "$sheet" 7)"
refuses 2 120 "${wrong[0]}" "${base[1]}" "$(sized "$sheet" 1000)"
refuses 3 0 "$design" "$(with "${base[1]}" 1 101)" "$(with "$sheet" 0 0)"

# Two faults: lengths come before ranges, the design before the set before the sheet,
# and in one document the first byte before the later ones.
base=("${documents[@]}")
refuses 1 127 "$(sized "$design" 127)" "$(sized "$set" 103)" "$sheet"
refuses 1 103 "${wrong[0]}" "$(sized "$set" 103)" "$(sized "$sheet" 327)"
refuses 1 327 "${wrong[@]:0:2}" "$(sized "$sheet" 327)"
refuses 2 120 "${wrong[@]}"
refuses 3 96 "$design" "${wrong[@]:1}"
at 0 "$(with "${wrong[0]}" 1 0)" refuses 2 8
at 1 "$(with "${wrong[1]}" 1 101)" refuses 3 8
at 2 "$(with "${wrong[2]}" 0 0)" refuses 4 0
at 0 "$(with "$design" 2 1001)" refuses 2 16                # over, then off
at 0 "$(with "$(with "$design" 9 49)" 3 2001)" refuses 2 24 # a, then off
at 0 "$(with "$(with "$design" 9 49)" 11 0)" refuses 2 72   # off, then over-law

# A megabyte of noise in each place: sizes out of range, then a size of 2 and zeros.
for noise in "$dir/zeros" "$dir/pattern"; do
  at 0 "$noise" refuses 2 0
  at 1 "$noise" refuses 3 0
  at 2 "$noise" refuses 1 328
done
at 0 "$(with "$dir/zeros" 0 2)" refuses 1 128
at 1 "$(with "$dir/zeros" 0 2)" refuses 1 56

# Random bytes: any answer, but an answer.
for file in "${documents[@]}"; do head -c 1000 /dev/urandom >"$file.random"; done
answer="@($(ok '*' '*')|refused +([0-9]) at +([0-9]))"
expect '[01]' "$answer" '' "$program" "${documents[@]/%/.random}"
