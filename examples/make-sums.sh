#!/bin/sh
# Prints a job file of so many sums, each of two numbers: 1,000,000 of them are as many as a file may have.
exec awk -v count="${1:?how many sums}" \
    'BEGIN { print "bqjobs 1"; for (i = 0; i < count; i++) print "job 0 sum", i % 10, i % 100 }'
