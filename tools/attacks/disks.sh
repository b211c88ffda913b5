#!/bin/sh
# A durable server on disks that fail. On a full one: what it says, that all answered changes stay, that `ae compact`
# leaves the journal as it is, and that both go on once there is room. Then on one whose sync of a gate fails: a loop
# device over a file whose blocks a snapshot shares, on a file system without room for other ones. From then on reads
# give bytes that the disk doesn't have, and further syncs succeed. The next start adds changes, and the disk is mounted
# anew: fails if an answered change is lost with the launcher, or if none is with the program alone.
# Usage: tools/attacks/disks.sh, as root, with python3, strace, mkfs.ext4 and mkfs.xfs installed
. "$(dirname "$0")/../../bench/lib.sh"
PYTHONPATH=$top/bench unshare -m python3 "$top/tools/attacks/disks.py" "$top/ae" "$top/built/ae"
