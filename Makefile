.PHONY: sheet runs test heard speed fuzz

# Prints the sheet of one run file: make sheet RUN=FILE. Without RUN it is the paper's own run.
RUN ?= runs/sample.run
sheet:
	@./bench sheet "$(RUN)"

# Compares the sheet of every run in a folder with the one worked by hand: make runs RUNS=FOLDER. Without RUNS it is the folder runs.
RUNS ?= runs
runs:
	@python3 tests/check_runs.py "$(RUNS)"

# Every proof from nothing, every must-fail edit, every program, the comparison with the second program, the runs worked by hand, and their work sheets.
test:
	@python3 tests/gate.py

# Speaks and brailles for real what the programs print, and brailles the work sheets; needs espeak-ng and liblouis, which nothing else here does.
heard:
	@python3 tests/heard.py

# Times the functions and the program beside a hand-written C program for the same sheets; needs cc, objcopy and an x86-64 machine, which nothing else here does.
speed:
	@python3 speed/speed.py

# Holds the program answers to the second program on COUNT made cases, byte for byte: make fuzz SEED=S COUNT=N FROM=K. The case of a seed and a number is always the same. It is no part of the gate.
SEED ?= 1
COUNT ?= 10000
FROM ?= 0
WORKERS ?= 2
fuzz:
	@python3 tests/fuzz.py "$(SEED)" "$(COUNT)" "$(FROM)" "$(WORKERS)"
