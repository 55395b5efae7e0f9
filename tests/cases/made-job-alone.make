#!/usr/bin/env bash
# The job that `make 0` makes.
awk 'BEGIN {
  print "KDF9 JOB 1"
  for (slot = 0; slot < 4; slot++) {
    print "SLOT " slot "\nSTORE 96\nDECK"
    print "Y0; PROGRAM V0; V0=Q0/64/65;"
    print "SET 2; SET 5; OUT; V0; =Q1; =C1; SET 1; SET 5; OUT; V0; =Q2; =C2;"
    print "1; PRQ1; PARQ1; J2TR; E64; E65; NEV; Y0; NEV; =Y0; PWQ2; J1;"
    print "2; ZERO; OUT; FINISH;\nENDDECK"
    print "DEVICE " 2 * slot " TR"
    for (line = 0; line < 200; line++) {
      printf "+"
      for (letter = 0; letter < 16; letter++) {
        x = (25173 * x + 13849) % 65536
        printf "%c", 65 + int(x / 256) % 26
      }
      print ""
    }
    print "DEVICE " 2 * slot + 1 " TP\nSHOW 12 12"
  }
  print "SCHEDULE"
  for (round = 0; round < 410; round++) {
    print "ORDERS 80"
    for (device = 0; device < 8; device++) print "END " device
  }
  print "ENDJOB"
}'
