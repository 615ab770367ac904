.PHONY: rt call show cues deps test .gate oracle listen bench edits c stage

# Rattle's toolchain, by which every program here is proved and built.
rt:
	$(if $(shell command -v rt 2>/dev/null),,$(error there is no rt, Rattle's toolchain; README.md says what it is, under "To start"))

# A call to listen to, in call.wav, and a table of its stages. The program is proved before it is built.
call: rt
	@mkdir -p target && { tools/build call >target/call.log 2>&1 || { cat target/call.log; exit 1; }; }
	@bin/call
	@echo "call.wav is written; what the toolchain said is in target/call.log"

# The show: sound and icons live, over JACK, and its panel in a browser. It is built to target/bin/show.
show: rt
	show/build

# The cue stack of a call before the call: make cues DIGITS=5551234 RATE=48000. The library is proved before it is built.
DIGITS = 5551234
RATE = 48000
cues: rt
	@mkdir -p target/bin && { tools/build gibbonplate >target/cues.log 2>&1 || { cat target/cues.log; exit 1; }; }
	@$(CC) -std=c99 -O2 -Wall -Wextra -Iinclude examples/cues.c target/staticlib/libgibbonplate.a -o target/bin/cues
	@target/bin/cues '$(DIGITS)' '$(RATE)'

# What the gate and the show need beyond the toolchain, from Debian; it wants to be root. tools/deps has the list.
deps:
	tools/deps --install

# The gate. Where it fails, make's own last words are the gate's, which say what failed and how to run it alone.
test: .gate
	$(if $(shell cat target/gate/failed 2>/dev/null),$(error $(shell cat target/gate/failed)))

.gate: rt
	@bash .ci/run || [ -s target/gate/failed ] || { mkdir -p target/gate && echo "gate: FAILED: it was broken off; alone: bash .ci/run" >target/gate/failed; }

# The Rust with 01's stand-ins, at target/oracle/oracle.
oracle:
	tests/oracle/build

# What `call` and `earpiece` write, held against the Rust or a second model and played to decoders of keys and of bits; and what the programs
# say where something fails.
listen: rt
	tools/build call wall tap letters bill serial earpiece
	tests/call
	tests/decode
	tests/sender
	tests/failures
	tests/letters
	tests/earpiece --listen

# The port against the Rust: ns a sample, and the samples' bits compared.
bench: rt
	tests/bench/run

# The wrong programs of tests/edits, which `rt ci` does not try.
edits: rt
	tests/edits/run

# The set from C: whole calls, every refusal, memory scribbled over.
c: rt
	tests/c/run

# The show on servers of its own, with JACK's dummy driver; then its panel in a browser and its cues, where there is one to try them with. On a machine
# that has nothing else to do, QUIET=1 judges how late the lights are too.
stage: rt
	tests/show/run $(if $(QUIET),--lateness)
	tests/show/words
	for part in run hostile refuse; do tests/panel/$$part || [ $$? -eq 3 ] || exit 1; done
