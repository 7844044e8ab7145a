"""aspa-check: brings a validator's records and a router's routes to the proved console, and words what it answers.

numbers     AS numbers and paths as people write them
inputs      files: compressed or not, standard input; what is wrong with them, with file and line
records     records and local exceptions (SLURM); which customer has which lists, from where
routes      routes: plain lines, `bgpdump -m`, MRT; equal ones held once
console     the console at the other end of a pipe
judging     routes judged in batches that fit into the console's registers
reasons     an answer in words, and the hops that decided it
report      the report, as text and as JSON
explain     one path hop by hop, as text, as JSON and as a picture
cli         the command line
"""
