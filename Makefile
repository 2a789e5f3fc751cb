# The two commands of the README: `make run` does the main job, `make test` passes all tests. `make` alone builds the program.
DAY ?= days/watch.day

.PHONY: host run acts play build days show bench soak test

host:
	$(MAKE) -C host

# Looks at the session `main`, which is started with the shell if it is not there.
run: host
	target/host/glass

# The glass over files: plays a day and prints the machine's acts.
acts: build
	target/bin/act_day $(DAY)

# The screens of a day, and how many bytes they took.
play:
	tools/build play_day
	target/bin/play_day $(DAY)

build:
	tools/build act_day

# What the programs write for each day, held to the files beside it; `days/check --write` writes these anew.
days:
	tools/build act_day play_day
	days/check

# A screen written out, on an example.
show:
	tools/build show_screen
	printf 'ahoy\r\n$$ \033[7mlamp\033[m' | target/bin/show_screen 20 5

# No test: how fast the terminal is, and how much time the program takes beside others.
bench:
	$(MAKE) -C bench
	$(MAKE) -C host bench

# No test: random days on the proved machine beside the second implementation, until stopped or until something differs.
soak:
	$(MAKE) -C second soak

# The program is tested twice, once with the compiler's checks. The last line is that of `rt ci`, which begins from nothing.
test:
	$(MAKE) -C second test gate
	$(MAKE) days
	$(MAKE) -C host test asan
	tools/prove
