// The examples to choose. Each has lines, readers, and where it shows two worlds the lines of the second one.
"use strict";

const STAFF = [
  { name: "reception", auths: ["desk"] },
  { name: "nurse", auths: ["care"] },
  { name: "doctor", auths: ["care", "diagnosis"] },
];

const CLINIC = `# A clinic keeps one store; each value has a label
createtable patients

insert patients ann visit room \\e 12
insert patients ann visit phone desk|care 555-0100
insert patients ann health allergy care penicillin
insert patients ann health finding care&diagnosis asthma

insert patients bob visit room \\e 14
insert patients bob billing insurer desk acme
insert patients bob health finding care&(diagnosis|study) flu`;

const EXAMPLES = [
  {
    title: "The clinic",
    about: "One store, three kinds of readers. Take an authorization away from the doctor, or give the reception one.",
    lines: CLINIC,
    readers: STAFF,
  },
  {
    title: "Versions",
    about: "The table keeps the two newest versions of a column. A label is a part of the column, so the ward's count and the study's are apart: neither pushes the other out. Change versions=2 to 3.",
    lines: `# The two newest of each column are shown
createtable ward versions=2

at 1
insert ward ann pulse rate care 72
at 2
insert ward ann pulse rate care 80
at 3
insert ward ann pulse rate care 76
insert ward ann pulse rate study 75

setauths root care,study
scan ward care,study

# Fewer from now on: take the # away
# versions ward 1`,
    readers: [
      { name: "nurse", auths: ["care"] },
      { name: "student", auths: ["study"] },
      { name: "both", auths: ["care", "study"] },
    ],
  },
  {
    title: "A delete in the past",
    about: "A delete hides by time, not by order: what is at or below its moment, also where it is written later. And it hides a column with its label, so it moves nothing for whoever reads under another one.",
    lines: `createtable doors

at 10
insert doors north door state \\e open
insert doors north door code guard 4711

# Deleted as of moment 5: what was written at 10 stays
delete doors north door code guard 5

# Deleted first, and then written, but of moment 3: hidden.
# Make the 3 a 7, and it appears
delete doors north door spare guard 5
insert doors north door spare guard 1234 3

# Make the 9 a 10, and the code is gone
delete doors north door code guard 9`,
    readers: [
      { name: "visitor", auths: [] },
      { name: "guard", auths: ["guard"] },
    ],
  },
  {
    title: "Compaction",
    about: "Compactions merge what is stored and drop what is hidden. The status lines count sources and records; the views stay as they were, byte for byte.",
    lines: `createtable log time=server

at 1
insert log mon door north \\e opened
insert log mon alarm cause guard&keys test
flush log
at 2
insert log mon door north \\e closed
delete log mon alarm cause guard&keys
insert log tue alarm cause guard&keys smoke
flush log
status log

# Take the # away, and watch the views stay
# compact log full
at 3
status log
scan log \\0`,
    readers: [
      { name: "porter", auths: [] },
      { name: "guard", auths: ["guard"] },
      { name: "chief", auths: ["guard", "keys"] },
    ],
  },
  {
    title: "Two worlds",
    about: "Two stores that differ only in what is labelled diagnosis. The doctor is told two things; the nurse and the reception are told the same, byte for byte, so neither can know which of the two it is. Write your own difference.",
    lines: `# World A
createtable patients

insert patients ann visit room \\e 12
insert patients ann health allergy care penicillin
insert patients ann health finding care&diagnosis asthma

insert patients bob visit room \\e 14`,
    other: `# World B
createtable patients

insert patients ann visit room \\e 12
insert patients ann health allergy care penicillin
insert patients ann health finding care&diagnosis none
insert patients ann health second care&diagnosis asthma

insert patients bob visit room \\e 14
insert patients bob health finding care&diagnosis flu
insert patients cleo health finding care&diagnosis flu`,
    readers: STAFF,
  },
];
