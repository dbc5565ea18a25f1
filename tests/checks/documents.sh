# The documents agree with the tree: crates, layers, statuses, and a manual page that is well formed.
# shellcheck shell=bash disable=SC2154

crates=$top/crates.txt
sed -n 's/^\([a-z0-9_]*\)\( [^:]*\)\?:.*/\1/p' "$crates" >"$work/crates"

# The table of the map has a row for each crate, in the order of crates.txt.
cp "$work/crates" "$work/wanted"
awk '/^## / { section = $0 } section == "## One by one"' "$top/docs/MAP.md" >table
sed -n 's/^| `\([a-z0-9_]*\)` |.*/\1/p' table >"$work/got"
same crates_of_MAP

# Where it says that a crate's tests stand, there are tests.
: >"$work/wanted"
: >"$work/got"
while IFS='|' read -r _ crate _ _ tests_of _; do
    crate=$(tr -d '` ' <<<"$crate")
    while read -r places; do
        # Places alone are the crate's own.
        room=$(sed -n 's/^ *`\([a-z0-9_]*\)`, .*/\1/p' <<<"$places")
        while read -r place; do
            file=$top/crates/${room:-$crate}/$place
            [[ -e $file.rt || -d $file ]] || echo "$crate: there is no $file" >>"$work/got"
        done < <(grep -oE 'src/[a-z0-9_/]+' <<<"$places")
    done < <(grep -oE '(`[a-z0-9_]+`, )?src/[a-z0-9_/]+( and src/[a-z0-9_/]+)*' <<<"$tests_of")
done < <(grep '^| `' table)
same tests_of_MAP

# Each crate says in its own first lines where its tests stand, as MAP does.
grep '^| `' table | awk -F ' [|] ' '{ gsub(/[`| ]/, "", $1); cell = $NF; sub(/ *[|]$/, "", cell); if (cell != "") print $1 ": " cell "." }' | sort >"$work/wanted"
(cd "$top/crates" && grep -H '^//! Tests: ' */src/lib.rt */src/main.rt) |
    sed -E 's,^([a-z0-9_]+)/src/[a-z]+[.]rt:(//! Tests: ),\1: ,' | sort >"$work/got"
same tests_named_by_crates

# Its words stand in alphabetical order, and each names crates that there are.
awk '/^## / { section = $0 } section == "## Whose words are whose" && /^\| / && !/^\| Word / { print }' "$top/docs/MAP.md" >words
sed 's/^| //; s/ | .*//' words | tr 'A-Z' 'a-z' | tr -cd 'a-z0-9 \n' >"$work/got"
sort "$work/got" >"$work/wanted"
same words_of_MAP
: >"$work/wanted"
awk -F ' [|] ' '{ print $2 }' words | grep -o '`[a-z0-9_]*`' | tr -d '`' | sort -u | grep -vxFf "$work/crates" >"$work/got"
same crates_of_the_words_of_MAP

# The README names each page.
(cd "$top" && printf '%s\n' CHANGELOG.md docs/*.1 docs/*.md examples/*/README.md tests/captures/README.md) | sort >"$work/wanted"
awk '/^## / { section = $0 } section == "## Where to read on"' "$top/README.md" | grep -oE '[(][A-Za-z0-9_/]+[.](md|1)[)]' | tr -d '()' | sort >"$work/got"
same pages_of_README

# A crate stands behind those that it uses.
: >"$work/wanted"
awk -F: '/^#/ { next } { split($1, name, " "); n = split($2, uses, " "); seen[name[1]] = NR; line[NR] = $0; count[NR] = n
         for (i = 1; i <= n; i++) use[NR, i] = uses[i] }
     END { for (r = 1; r <= NR; r++) for (i = 1; i <= count[r]; i++)
               if (use[r, i] in seen && seen[use[r, i]] > r) print line[r] }' "$crates" >"$work/got"
same crates_lowest_first

awk -f "$top/docs/layers.awk" "$crates" >"$work/wanted"
awk '/^```$/ { inside = !inside; next } /^## / { section = $0 } inside && section == "## In layers"' "$top/docs/MAP.md" >"$work/got"
same layers_of_MAP

manual=$top/docs/ipfw_replay.1
if command -v mandoc >/dev/null; then
    : >"$work/wanted"
    mandoc -Tlint -Wwarning "$manual" "$top/docs/report_view.1" >"$work/got" 2>&1
    same manuals_are_well_formed
fi

# The manual has each status of the README's table.
sed -n 's/^| \([0-7]\) | .*/\1/p' "$top/README.md" | sort -u >"$work/wanted"
awk '/^\.Sh EXIT STATUS/ { inside = 1; next } /^\.Sh/ { inside = 0 } inside && /^\.It / { print $2 }' "$manual" >"$work/got"
same manual_has_each_status

# The manual has each kind of fault and each refusal that the tables of the rules have.
sed -n 's/^| \(\(`[A-Z][A-Za-z]*`\(, \)\?\)*\) | .*/\1/p' "$top/docs/RULES.md" | grep -o '[A-Z][A-Za-z]*' | sort >"$work/wanted"
sed -n 's/^\.It Sy \([A-Z][A-Za-z]*\)$/\1/p' "$manual" | sort >"$work/got"
same manual_has_each_fault

# The README's first example, pasted as it stands, prints the lines that stand below it, in their order, '..' standing
# for some lines.
mkdir -p bin && ln -sf "$program" bin/ipfw_replay && ln -sf "$top/examples" examples
awk '/^```/ { if (inside) exit; inside = $0 == "```sh"; next } inside' "$top/README.md" >script_of_readme
{
    awk '/^This is printed/ { behind = 1 } behind && /^```$/ { if (inside) exit; inside = 1; next } inside' "$top/README.md"
    echo 'status 0'
} >"$work/wanted"
{ timeout 100 bash script_of_readme </dev/null 2>&1; echo "status $?"; } >report
awk 'NR == FNR { wanted[++count] = $0; next }
     BEGIN { at = 1 }
     at <= count && wanted[at] == ".." { is_gap = 1; print ".."; at++ }
     at <= count && $0 == wanted[at] { print; at++; is_gap = 0; next }
     !is_gap { print "not in the README: " $0; exit }' "$work/wanted" report >"$work/got"
same first_example_of_README

# Its way to try an edit, pasted as it stands, says that both replays are good, and then what stands below it.
ln -sf "$(dirname "$program")/report_view" bin/report_view
awk '/^[*][*]To try an edit/ { behind = 1 } behind && /^```/ { if (inside) exit; inside = 1; next } inside' "$top/README.md" >script_of_readme
{
    printf 'status 0\nstatus 0\n'
    awk '/^[*][*]To try an edit/ { behind = 1 } /^Then come the moves/ { exit } behind && sub(/^    /, "")' "$top/README.md"
} >"$work/wanted"
timeout 100 bash script_of_readme </dev/null 2>&1 | grep -E '^(status|moved|stayed) ' | head -5 >"$work/got"
same edit_of_README

# Each wrong body, those that the gate tries and those that it leaves to wrong-bodies/run, can be put into its crate.
: >"$work/wanted"
python3 "$tests/edits.py" "$top" >"$work/got" 2>&1
same wrong_bodies_fit_their_crates
