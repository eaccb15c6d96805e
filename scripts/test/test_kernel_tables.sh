#!/usr/bin/env bash
# Looks that kernel_tables.py refuses slips in a copy of the crates. KERNEL names the kernel's files, as there.
. "$(dirname "$0")/../common.sh"
kernel=${KERNEL:-/usr/src/linux-source-6.12.tar.xz}
if [ -f "$kernel" ]; then
    mkdir "$folder/kernel"
    python3 scripts/test/kernel_tables.py --unpack "$folder/kernel" "$kernel"
    kernel=$folder/kernel
fi
shopt -s nullglob
mkdir "$folder/tree"
cp -r --parents crates/*/{src,specs} "$folder/tree"
cd "$folder/tree/crates"

tables=(python3 "$top/scripts/test/kernel_tables.py" --tree "$folder/tree" "$kernel")
tries "${tables[@]}"
[ "$status" = 0 ] || fails 'the crates as they are were refused'
! grep 'skipped' "$folder/out" || exit 0
echo 'test_kernel_tables: the crates as they are: ok'

# with the edit of sed in these files, the refusal has to say the words
slips=()
reads slips kernel_slips.txt
for it in "${slips[@]}"; do
    words=${it%%  *} rest=${it#*  }
    read -ra files <<<"${rest%%  *}"
    sed -i -E "${rest#*  }" "${files[@]}"
    for file in "${files[@]}"; do
        ! cmp -s "$file" "$top/crates/$file" || fails "$words: nothing to edit in $file"
    done
    fails_with "$words" "${tables[@]}"
    [ "$status" = 1 ] || fails "$words: status $status"
    echo "test_kernel_tables: $words: refused"
    (cd "$top/crates" && cp --parents "${files[@]}" "$folder/tree/crates")
done
echo 'test_kernel_tables: ok'
