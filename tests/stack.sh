#!/bin/sh
# Runs the program on the lines that take most of the machine's stack, with little of it: 96 KiB. Its argument is the
# program. Each row has to be answered as it is with all the stack there is.
# The last line says how many rows passed and failed; the status is 1 where one failed.
program=${1:-$(dirname "$0")/../crates/poincare/out/poincare}
[ -x "$program" ] || { echo "the program is not built: ./poincare builds it"; echo "0 passed, 1 failed"; exit 1; }
folder=$(mktemp -d) || exit 1
trap 'rm -rf "$folder"' EXIT
trap 'exit 1' HUP INT TERM
size=96
passed=0
failed=0

# repeat NUMBER TEXT
repeat() {
    awk -v number="$1" -v text="$2" 'BEGIN { for (i = 0; i < number; i++) printf "%s", text }'
}

# row NAME WORD..: the lines of $folder/input, answered to their end with so many KiB of stack, within five minutes
row() {
    name=$1
    shift
    if timeout 300 "$program" "$@" <"$folder/input" >"$folder/wanted" &&
        timeout 300 sh -c 'ulimit -S -s "$0" && exec env -i "$@"' "$size" "$program" "$@" \
            <"$folder/input" >"$folder/written" 2>/dev/null &&
        [ -s "$folder/written" ] && cmp -s "$folder/wanted" "$folder/written"; then
        passed=$((passed + 1))
    else
        failed=$((failed + 1))
        echo "failed: $name with $size KiB of stack, words '$*'"
    fi
}

# tried NAME WORD..: in the default pool and in the greatest
tried() {
    name=$1
    shift
    row "$name" "$@"
    row "$name" --pool 524280 "$@"
}

echo "1+1" >"$folder/input"
tried "1+1"
{ repeat 63 "-"; echo x; } >"$folder/input"
tried "63 minus signs"
{ repeat 511 "x*"; echo x; } >"$folder/input"
tried "a product of 512 x"
{ repeat 510 "x+"; echo x; } >"$folder/input"
tried "a sum of 511 x"
{ repeat 64 "("; printf x; repeat 64 ")"; echo; } >"$folder/input"
tried "64 nested parentheses"
{ repeat 31 "(x+1/"; printf x; repeat 31 ")"; echo; } >"$folder/input"
tried "62 nested sums and quotients" --draw
{ repeat 31 "1/(1+"; printf x; repeat 31 ")"; echo; } >"$folder/input"
tried "a deep quotient and its picture" --draw
{ repeat 62 "√("; printf x; repeat 62 ")"; echo; } >"$folder/input"
tried "62 nested roots and their picture" --draw
{ repeat 62 "x^"; echo x; } >"$folder/input"
tried "62 nested powers and their picture" --draw
echo "(√(2)+√(3)+√(5)+√(7)+√(11)+√(13)+√(17)+√(19))^2" >"$folder/input"
tried "the square of a sum of roots"
echo "1/(√(2)+√(3)+√(5)+√(7)+√(11))" >"$folder/input"
tried "the inverse of a sum of roots"
echo ":dump" >"$folder/input"
tried "a dump"

{ printf ":diff x "; repeat 61 "(1+"; printf x; repeat 61 ")"; echo; } >"$folder/input"
tried "a deep line that is differentiated"
{ printf ":diff x "; repeat 20 "(x×(1+"; printf x; repeat 20 "))"; echo; } >"$folder/input"
tried "deep products that are differentiated"
{ printf ":expand "; repeat 61 "(1+"; printf x; repeat 61 ")"; echo; } >"$folder/input"
tried "a deep line that is expanded"
{ printf ":solve "; repeat 61 "(1+"; printf x; repeat 61 ")"; echo "=1"; } >"$folder/input"
tried "a deep equation"
{ printf ":solve "; repeat 30 "(1-2×"; printf x; repeat 30 ")"; echo "=1"; } >"$folder/input"
tried "a deep equation of products"
echo ":solve u+v+w+x+y+z=1;u-v+w=2;v-w+x=3;w-x+y=4;x-y+z=5;u+2v+3w+4x+5y+6z=6" >"$folder/input"
tried "six equations in six names"
{ printf ":roots x "; repeat 61 "(1+"; printf x; repeat 61 ")"; echo "=1"; } >"$folder/input"
tried "a deep equation whose root is told"
{ printf ":roots x (x-1)^32=0\n:roots x "; repeat 31 "-"; echo "((x-2)^20×(x+1/3)^10×(x^2-2))=0"; } >"$folder/input"
tried "32 roots, and a deep product of 32 factors"

# signs NUMBER LINE: the line below so many minus signs
signs() {
    repeat "$1" "-"
    printf '%s\n' "$2"
}

# Deep and wide at once.
{ printf ":expand "; signs 60 "(a+b+c+d)^7"; } >"$folder/input"
tried "60 minus signs before a power of a sum that is expanded"
{ printf ":expand "; signs 60 "(a+b+c+d+e+f+g+h+i)^3"; } >"$folder/input"
tried "60 minus signs before a power of nine names, which is expanded among the trees"
{ printf ":expand "; signs 58 "((x+1)^8×(y+1)^2×(z-1)^2)"; } >"$folder/input"
tried "58 minus signs before a product that is expanded"
signs 60 "(√(2)+√(3)+√(5)+√(7)+√(11)+√(13)+√(17))^4" >"$folder/input"
tried "60 minus signs before a power of a sum of roots"
{ printf ":diff x "; repeat 29 "(1-x×"; printf '(x+1)^9×(x+y)^3'; repeat 29 ")"; echo; } >"$folder/input"
tried "a deep line of wide products that is differentiated"
{ printf ":solve "; repeat 28 "(1-2×"; printf '(u+2v+3w+4x+5y+6z)'; repeat 28 ")"; echo "=1;u=v;v=w;w=x;x=y;y=2"; } >"$folder/input"
tried "six equations, one of them deep"

# sum FROM TO: the names of two letters from one number to before another, with a plus sign between
sum() {
    awk -v from="$1" -v to="$2" 'BEGIN {
        letters = "abcdefghijklmnopqrstuvwxyz"
        for (i = from; i < to; i++)
            printf "%s%s%s", (i > from ? "+" : ""), substr(letters, int(i / 26) + 1, 1), substr(letters, i % 26 + 1, 1)
    }'
}

{ sum 0 250; echo "→s"; sum 250 500; echo "→t"; echo "s+t"; } >"$folder/input"
tried "a sum of 500 names and its picture" --draw
{ sum 0 250; echo "→s"; for letter in a b c d e f g h i j k l m n o p q r; do printf "s^%s+" $letter; done; echo 1; } >"$folder/input"
row "a picture of more than 8,192 parts" --pool 524280 --draw

# Lists of the terms that are put in order stand on the machine's stack, as long as the pool may need.
{ sum 0 300; echo "→s"; signs 58 "(s+s+s+s)"; } >"$folder/input"
tried "58 minus signs before a sum of 1,200 names"
{ sum 0 300; echo "→s"; signs 58 "(s+s+s+s+s+s+s+s)"; } >"$folder/input"
size=512
row "58 minus signs before a sum of 2,400 names" --pool 524280

echo "$passed passed, $failed failed"
[ "$failed" = 0 ]
