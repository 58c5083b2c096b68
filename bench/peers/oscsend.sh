#!/bin/sh
# Sends messages by oscsend: oscsend.sh URL
set -eu
to=$1
oscsend $to /1/fader1 f 0.5
oscsend $to /light/dim i 7
oscsend $to /cue/name s "act two"
oscsend $to /a
oscsend $to '/{a,b}' i 1
oscsend $to '/1/*' f 1.0
oscsend $to /a ifshdTFNIcm 1 0.25 hi 8589934592 1.5 A 00903c7f
oscsend $to light/dim i 7
oscsend $to "$(printf '/caf\303\251')" i 1
