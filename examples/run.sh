#!/bin/sh
# Builds and runs the examples and compares what they print with what is expected.
# run.sh [folder]: the folder that holds libezumokarin.a, by default dist/ of the project.
set -eu
here=$(cd "$(dirname "$0")" && pwd)
dist=$(cd "${1:-$here/../dist}" && pwd)
work=$(mktemp -d)
trap 'rm -rf "$work"' EXIT

cat > "$work/view.expected" <<'TABLE'
pos id size off len
0 0 10485760 0 10485760
10485760 10 31457280 0 6291456
16777216 12 10485760 0 10485760
27262976 11 16777216 6291456 10485760
37748736 10 31457280 27262976 4194304
41943040 0 25165824 0 25165824
TABLE

# By hand, from the requirements. The first three records are slice 1 (70,000 bytes, from offset 50) from 100, five zeros from 110, and slice 2 (20 bytes)
# from 70,040. They cover 100 to 70,059, so the new slice has 69,960 bytes, in blocks of 65,536 and 4,424. Slice 1 has blocks of 65,536 and 4,464; the second
# starts at position 65,586, which is place 65,486. Byte o of slice i is 60 i + o % 60. The bytes printed are those at 97 (uncovered), 98 and 101 (slice 3, offsets
# 0 and 3), 102 (slice 1, offset 52), 110 (a zero), 115, 65,586, 65,636 and 70,039 (slice 1, offsets 65, 65,536, 65,586 and 69,989), 70,040 (slice 2, offset 0)
# and 70,060 (uncovered). The chunk has index 5.
cat > "$work/compact.expected" <<'TEXT'
old list reads 0 180 183 112 0 65 76 66 89 120 0
RB 5 0 10
RZ 5 10 5
RB 5 15 65471
RB 5 65486 4454
RB 5 69940 20
chunks/0/0/1_0_65536
chunks/0/0/1_1_4464
chunks/0/0/2_0_20
chunks/0/0/3_0_4
chunks/0/0/4_0_65536
chunks/0/0/4_1_4424
new list reads 0 180 183 112 0 65 76 66 89 120 0
both read the same bytes
TEXT

# By hand, from the requirements. Of slice 7, at 0, eight bytes are hidden by zeros from 4 on; it ends at 20, and the chunk at 24. So the view has four segments:
# from 0 and from 12 slice 7 at its own offsets, from 4 zeros, from 20 nothing.
cat > "$work/seek.expected" <<'TEXT'
0: segment 0, slice 7 at 0
3: segment 0, slice 7 at 3
4: segment 1, zeros
11: segment 1, zeros
12: segment 2, slice 7 at 12
19: segment 2, slice 7 at 19
20: segment 3, uncovered
23: segment 3, uncovered
24: none
TEXT

# By hand, from the requirements. Slice 7 covers 0 to 5; then slice 8 covers 4 to 7 and zeros 2 and 3; then nothing is new. Then the list is another: slice 9 covers 0
# to 5, zeros 2 and 3, and nothing 6 and 7. Of the next record a byte is missing; the whole of it covers 10 and 11 with slice 5.
cat > "$work/added.expected" <<'TEXT'
added 1: 777777......
added 2: 77008888....
added 0: 77008888....
rewritten 2: 990099......
refused 1 at 0: 990099......
added 1: 990099....55
TEXT

# By hand, from the requirements. The read starts 61 MiB into chunk 2, and the file ends 2.5 MiB into chunk 3: 5.5 MiB are left. Slice 21 (5 MiB) from 58 MiB on
# has blocks of 4 MiB and 1 MiB; its second starts at 62 MiB and ends at 63 MiB. Up to the edge nothing is covered, and behind it up to 1 MiB: two pieces, since
# none crosses an edge. Slice 22 (2 MiB, one block) follows up to the file's end, but for 0.25 MiB of zeros at 2 MiB. Then the second record of chunk 3's list,
# which is these zeros, has an off.
cat > "$work/file.expected" <<'TEXT'
RB 2 0 21 0 4194304 3145728 1048576
RB 2 1048576 21 1 1048576 0 1048576
RZ 2 2097152 0 0 0 0 1048576
RZ 3 3145728 0 0 0 0 1048576
RB 3 4194304 22 0 2097152 0 1048576
RZ 3 5242880 0 0 0 0 262144
RB 3 5505024 22 0 2097152 1310720 262144
refused 5 at 1 in the list of chunk 3
TEXT
# By hand, from the requirements: the pieces above. The tablet is switched off where 4.5 MiB have arrived, half of the 1 MiB of slice 22 from place 4 MiB on; the
# rest of that piece starts 0.5 MiB later in its block. After 5.5 MiB the read is finished, and stays so; but a list that is damaged then is refused there too.
cat > "$work/next.expected" <<'TEXT'
on at 0
RB 2 0 21 0 4194304 3145728 1048576
RB 2 1048576 21 1 1048576 0 1048576
RZ 2 2097152 0 0 0 0 1048576
RZ 3 3145728 0 0 0 0 1048576
RB 3 4194304 22 0 2097152 0 1048576
on at 4718592
RB 3 4718592 22 0 2097152 524288 524288
RZ 3 5242880 0 0 0 0 262144
RB 3 5505024 22 0 2097152 1310720 262144
finished
on at 5767168
finished
on at 5767168
refused 5 at 1 in the list of chunk 3
TEXT

# By hand, from the requirements: the seven pieces above. In another order they are accepted, and so are they where piece 4, the 1 MiB of slice 22 from place 4 MiB on,
# is two halves. Without its second half the byte at 4.5 MiB is missing. With piece 0 a second time in its stead byte 0 is doubled, which comes before. A piece of zeros
# from 2 MiB on that is 2 MiB long has in its second half another chunk than the read; it is piece 2. The damaged list is refused whatever the plan is.
cat > "$work/judge.expected" <<'TEXT'
in reverse: accepted
in halves: accepted
without the second half: byte 4718592 is in no piece, or in more than one
with another piece twice: byte 0 is in no piece, or in more than one
with zeros over the edge: piece 2 is wrong
with a damaged list: refused 5 at 1 in the list of chunk 3
TEXT

# shown NAME: README shows these lines too, from where the first of them stands first up to an empty line.
shown() {
    first=$(head -n 1 "$work/$1.expected")
    sed -n "/^    $first\$/,/^\$/{/^\$/q;s/^    //;p;}" "$here/../README.md" > "$work/shown"
    diff "$work/$1.expected" "$work/shown" && return
    echo "README.md shows other lines of examples/$1.c" >&2
    exit 1
}
shown file
shown next
shown judge

# The lines that the page shows, by hand from the requirements.
sed -n 's/^    //p' "$here/../docs/VIEW-AGAIN.md" > "$work/again.expected"

# Every example has its expected lines.
for source in "$here"/*.c; do
    name=$(basename "$source" .c)
    cc -std=c99 -O1 -Wall -Wextra -Werror -I"$here/../include" "$source" "$dist/libezumokarin.a" -o "$work/$name"
    "$work/$name" > "$work/from_c"
    diff "$work/$name.expected" "$work/from_c"
    echo "$name.c: as expected"
done

# Python needs a shared library; without one in the folder it is made from the archive.
shared=$dist/libezumokarin.so
if [ ! -f "$shared" ]; then
    shared=$work/libezumokarin.so
    cc -shared -Wl,--whole-archive "$dist/libezumokarin.a" -Wl,--no-whole-archive -o "$shared"
fi
python3 "$here/view.py" "$shared" > "$work/from_python"
diff "$work/view.expected" "$work/from_python"
echo "view.py: as expected"
