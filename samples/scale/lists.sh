#!/usr/bin/env bash
# Prints the lists of a shard that is served, for the file of shards: those that its own page of lists names.
#
#   samples/scale/lists.sh ADDRESS:PORT
#
# Status 1 if nobody answers there, with curl's reason on standard error; 2 for a usage error.
set -eu
case ${1-} in -h | --help) sed -n '2,/^[^#]/s/^# \{0,1\}//p' -- "$0"; exit ;; esac
[ $# -eq 1 ] || { echo 'lists.sh: ADDRESS:PORT is to be given; --help says more' >&2; exit 2; }
page=$(curl -fsS --noproxy '*' --max-time 60 "http://$1/") || exit 1
sed -nE 's|^<div class="d0"><a href="/l/([a-z][a-z0-9-]*)/threads">.*|\1|p' <<< "$page"
