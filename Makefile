CRATE ?= exact_json
PROGRAM = crates/vstore/out/vstore
COST = crates/variant_cost/out/variant_cost
COLUMN_COST = crates/column_cost/out/column_cost
STRIPING_COST = crates/striping_cost/out/striping_cost
SHREDDING_COST = crates/shredding_cost/out/shredding_cost
PREFIX ?= /usr/local

.PHONY: demo build install test check fmt bench

demo:               ## runs the main job on a small real file: by the proved program, or unproved where none is built
	@examples/demo.sh $(PROGRAM)
build:              ## proves and builds the program
	@cd crates/vstore && rt run -- scan '$$' < /dev/null > /dev/null
install: build      ## puts the program and its manual page in place: make install PREFIX=/usr/local
	install -D -m 755 $(PROGRAM) $(DESTDIR)$(PREFIX)/bin/vstore
	install -D -m 644 man/vstore.1 $(DESTDIR)$(PREFIX)/share/man/man1/vstore.1
test:               ## the merge gate: every proof, edit, test and program
	@rt ci
check:              ## one crate while you edit: make check CRATE=json_tree
	cd crates/$(CRATE) && rt check
fmt:                ## lays out every crate
	@for c in crates/*/; do (cd $$c && rt fmt) || exit 1; done
bench: build        ## times the program on generated data, beside its peers
	@cd crates/variant_cost && rt run -- view 0 < stdin > /dev/null
	@cd crates/column_cost && rt run -- runs 0 > /dev/null
	@cd crates/striping_cost && rt run -- stripe-lists 0 > /dev/null
	@cd crates/shredding_cost && rt run -- shred 0 variant < stdin > /dev/null
	@COST=$(COST) COLUMN_COST=$(COLUMN_COST) STRIPING_COST=$(STRIPING_COST) SHREDDING_COST=$(SHREDDING_COST) bench/run.sh $(PROGRAM)
