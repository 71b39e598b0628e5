# The table of docs/REFUSALS.md as lines number|what the place counts|sentence.
BEGIN { FS = " *[|] *" }
$2 ~ /^[0-9]+$/ {
    counted = ""
    if ($3 ~ /^word/) counted = "word"
    if ($3 ~ /^polygon/) counted = "polygon"
    if ($3 ~ /^leaf/) counted = "leaf"
    if ($3 ~ /^1 /) counted = "list"
    print $2 "|" counted "|" $4
}
