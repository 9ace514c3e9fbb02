# The beginning of scripts that try the program: `top` is the top of the repository, `work` a folder that goes with the script, `pg` the
# program, which is built where that is due, or the one that PG names, and nothing is `wrong` yet.
set -u
top=$(cd "$(dirname "$(readlink -f "${BASH_SOURCE[0]}")")/../.." && pwd)
work=$(mktemp -d) || exit 1
trap 'rm -rf "$work"' EXIT
[ -n "${PG-}" ] || "$top/pg" --help >/dev/null || { echo "the program does not run" >&2; exit 1; }
pg=${PG:-$top/crates/pg_cli/out/pg_cli}
wrong=0
