# Code that stands in a page, for the scripts that try it.

# block FILE SECTION N: block N of the code in that section, without its indent
block() {
    awk -v section="## $2" -v n="$3" '
        /^## / { inside = $0 == section; code = 0 }
        !inside { next }
        /^    / { k += !code; code = 1; if (k == n) print blank substr($0, 5); blank = ""; next }
        /^$/ { blank = blank (code ? "\n" : ""); next }
        { code = 0; blank = "" }' "$1"
}
