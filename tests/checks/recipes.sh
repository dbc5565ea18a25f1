# Each recipe of docs/RECIPES.md: its commands are run as they stand, and print what stands below them.
# shellcheck shell=bash disable=SC2154

mkdir -p recipes/bin && ln -sf "$top/examples" recipes/examples && ln -sf "$tests" recipes/tests && ln -sf "$program" recipes/bin/ipfw_replay
ln -sf "$(dirname "$program")/report_view" recipes/bin/report_view
sed -n 's/^    //p' "$top/docs/RECIPES.md" >"$work/wanted"
(
    cd recipes || exit 1
    grep '^    \$ ' "$top/docs/RECIPES.md" | while IFS= read -r line; do
        echo "${line#    }"
        bash -c "${line#    \$ }" </dev/null 2>&1
    done
) >"$work/got"
same recipes
