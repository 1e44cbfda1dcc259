#!/usr/bin/env bash
# For a script to source, with its own words: its first comment is its help. --help alone prints it; refuse says why, prints it
# and ends with status 2.
usage() {
    sed -n '2,/^[^#]/s/^# \{0,1\}//p' "$0"
}

refuse() {
    {
        echo "${0##*/}: $1"
        usage
    } >&2
    exit 2
}

if [ "$*" = --help ]; then
    usage
    exit 0
fi
