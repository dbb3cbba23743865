#!/bin/sh
# Carries a topic over from one broker to another with kcat, partition by partition. Keys and deletes are kept, and the order
# within a partition; an empty value becomes a delete. Keys and values have no control characters 1 and 2.
#
#   examples/carry_topic.sh FROM TO TOPIC PARTITIONS
#
# FROM and TO are HOST:PORT, and either may be a cluster of Apache Kafka. The topic is there with so many partitions.
set -e
from=$1 to=$2 topic=$3 partitions=$4
between=$(printf '\001') behind=$(printf '\002')
partition=0
while [ "$partition" -lt "$partitions" ]; do
    kcat -b "$from" -C -q -e -t "$topic" -p "$partition" -o beginning -K "$between" -D "$behind" |
        kcat -b "$to" -P -t "$topic" -p "$partition" -K "$between" -D "$behind" -Z
    partition=$((partition + 1))
done
