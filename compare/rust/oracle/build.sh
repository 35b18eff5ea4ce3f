#!/bin/sh
# Builds the oracle: EPANET_RS=FOLDER ./build.sh, where FOLDER holds the reference's files.
#
# The files are copied to target/reference, which git does not keep, into the frame of our own files in frame/. Nothing
# in them is changed; solver/hydraulicsolver.rs has frame/doorway.rs appended, a child module that may call its private
# functions. reference.sha256 lists the files that are copied and says which commit's text they have.
set -eu

: "${EPANET_RS:?set it to the folder that holds the files of epanet-rs}"
folder=$(cd "$EPANET_RS" && pwd)
cd "$(dirname "$0")"
reference=target/reference

# Where a file of the reference stands: below src/, at the top, or in one folder under a flattened name.
place_of() {
    for place in "$folder/src/$1" "$folder/$1" "$folder/src--src--$(echo "$1" | sed 's,/,--,g').txt"; do
        if [ -f "$place" ]; then
            echo "$place"
            return
        fi
    done
    echo "build.sh: no $1 in $folder" >&2
    exit 1
}

# Writes standard input to a file, and leaves the file alone where it is the same, so that cargo has nothing to redo.
put() {
    mkdir -p "$(dirname "$1")"
    cat > "$1.new"
    if cmp -s "$1.new" "$1"; then rm "$1.new"; else mv "$1.new" "$1"; fi
}

while read -r sum file; do
    place=$(place_of "$file")
    if [ "$(sha256sum < "$place" | cut -d' ' -f1)" != "$sum" ]; then
        echo "build.sh: $place is not the text of commit fee0d03b11" >&2
        [ -n "${EPANET_RS_OTHER:-}" ] || exit 1
    fi
    case $file in
        solver/hydraulicsolver.rs) cat "$place" frame/doorway.rs ;;
        *) cat "$place" ;;
    esac | put "$reference/src/$file"
done < reference.sha256

(cd frame && find src Cargo.toml -type f) | while read -r file; do
    put "$reference/$file" < "frame/$file"
done

cargo build --release --offline --target-dir target -j "${JOBS:-1}"
echo "built $(pwd)/target/release/oracle"
