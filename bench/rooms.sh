#!/bin/sh
# Checks the rooms of mesh_model/specs: a room imports only from itself and from the rooms that
# stand before it in Lib.antt. Prints each import that doesn't keep to this, and then fails.
cd "$(dirname "$0")/../crates/mesh_model/specs" || exit 1
earlier=
bad=0
for room in $(sed -n 's/^pub mod //p' Lib.antt); do
    earlier="$earlier $room"
    for used in $(cat "$room"/*.antt | sed -n 's/^use Rattle\.mesh_model\.specs\.\([A-Z][A-Za-z]*\)\..*/\1/p' | sort -u)
    do
        case " $earlier " in
        *" $used "*) ;;
        *)
            grep -l "^use Rattle\.mesh_model\.specs\.$used\." "$room"/*.antt | sed "s/$/ imports from $used/"
            bad=1
            ;;
        esac
    done
done
exit $bad
