#!/bin/bash
# Searches one of N parts of a file by litgrep. The parts are cut at newlines; in order they are the file.
#
#   size=$(stat -Lc %s FILE)
#   seq 16 | parallel -k --retries 3 env SIZE=$size deploy/parallel/part.sh {} 16 FILE -f WORDS
#   seq 16 | parallel -k --retries 3 -S one,two env SIZE=$size /shared/part.sh {} 16 /shared/FILE -f /shared/WORDS
#
# SIZE in the environment is how many bytes of the file are searched. All parts are cut by it, so that they fit together
# though the file grows meanwhile. Without SIZE each part measures the file itself: then the file must not change.
#
# Status 0: the part was read to its end and searched, even if no line was selected. After any other status, search the
# part again; 2 if a word is wrong, or the file is shorter than SIZE. LITGREP in the environment names a litgrep that is
# not on the PATH.
if (($# < 4)); then
    echo "usage: part.sh PART PARTS FILE OPTION.." >&2
    exit 2
fi
part=$1 parts=$2 file=$3
shift 3

refuse() {
    echo "part.sh: $1" >&2
    exit 2
}

# How many bytes the file has now.
length() {
    [[ -f $file && -r $file ]] || refuse "$file: no file that can be read"
    stat -Lc %s -- "$file"
}

# Some bytes of the file: from which place, and how many.
bytes() {
    dd if="$file" bs=1M iflag=skip_bytes,count_bytes skip="$1" count="$2" status=none
}

# The first place, from $1 on, at which a line begins, or the end. What is read has the newline before that place, or
# else is all the rest. A reading that failed may be neither.
line_start() {
    (($1 > 0)) || { echo 0; return; }
    local from=$(($1 - 1)) newlines count
    read -r newlines count < <(bytes "$from" "$((size - from))" | head -n 1 | wc -lc)
    ((newlines == 1 || from + count == size)) || refuse "$file could not be read to the end of a line"
    echo "$((from + count))"
}

now=$(length) || exit 2
for word in "$part" "$parts" "${SIZE:=$now}"; do
    [[ $word =~ ^[0-9]{1,18}$ ]] || refuse "PART, PARTS and SIZE are numbers, and not '$word'"
done
# 10# since a number that begins with 0 would be octal.
part=$((10#$part)) parts=$((10#$parts)) size=$((10#$SIZE))
((1 <= part && part <= parts)) || refuse "there is no part $part of $parts"
((size <= now)) || refuse "$file is shorter than $size bytes"
# The products below have to fit 63 bits.
((size <= 2**62 / parts)) || refuse "$parts parts of $size bytes are too many"
first=$(line_start "$((size * (part - 1) / parts))") && last=$(line_start "$((size * part / parts))") || exit 2
bytes "$first" "$((last - first))" | "${LITGREP:-litgrep}" "$@"
ends=("${PIPESTATUS[@]}")
now=$(length) && ((size <= now)) || refuse "$file became shorter than $size bytes"
((ends[0] == 0 && ends[1] <= 1))
