# Builds, proves and runs; see README.md.
.PHONY: run build test

EXAMPLE = $(CURDIR)/out/example
FROM = $(or $(PWD),$(CURDIR))
ARGUMENTS = run 1 $(EXAMPLE)/script.txt vda=$(EXAMPLE)/vda.txt vdb=$(EXAMPLE)/vdb.txt

# two disks, a script that puts a guest on each, and what the guests ask
out/example/script.txt:
	mkdir -p out/example
	truncate -s 1M out/example/a.img out/example/b.img
	printf 'write -P 0x55 65530 12\nread 65528 16\n' > out/example/vda.txt
	printf 'await 7\nwrite -P 0x66 0 2\nflush\nread 0 4\n' > out/example/vdb.txt
	printf '%s\n' \
	  '{"execute":"qmp_capabilities"}' \
	  '{"execute":"blockdev-add","arguments":{"driver":"raw","node-name":"a","file":{"driver":"file","filename":"$(EXAMPLE)/a.img"}}}' \
	  '{"execute":"blockdev-add","arguments":{"driver":"raw","node-name":"b","file":{"driver":"file","filename":"$(EXAMPLE)/b.img"}}}' \
	  '{"execute":"device_add","arguments":{"driver":"virtio-blk","id":"vda","drive":"a"}}' \
	  '{"execute":"device_add","arguments":{"driver":"virtio-blk","id":"vdb","drive":"b"}}' \
	  '{"execute":"blockdev-del","arguments":{"node-name":"a"}}' \
	  'await guest vda 2' > $@

# a script with two guests, or what ARGUMENTS say, in the caller's folder: the transcript goes to standard output
run: out/example/script.txt
	@cd '$(FROM)' && { '$(CURDIR)/tools/unproved' $(ARGUMENTS) || echo "status $$?"; }

# the proved program, at crates/qblk/out/qblk
build: out/example/script.txt
	@echo 'Proving all that the program stands on: about an hour on four processors the first time, less after an edit.'
	cd crates/qblk && rt run -- $(ARGUMENTS)

test:
	@echo 'Proving everything from nothing, with the tests and the wrong edits: about two hours on four processors the first time.'
	bash .ci/run
