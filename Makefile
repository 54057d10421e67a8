# make demo: the main job, on a small package or with PACKAGE=file on a file. make test: everything that is proved and tested.
# make bench: time and stack. make vectors: our own known answers, in target/vectors.
# make secrets: no branch and no address depends on a secret.
# make soak: noisy calls for a minute, or with SECONDS=n for so long, and with SEED=n from that seed on.
# make interop: the library against a partner's program, 60 keys and messages in each set, or with COUNT=n so many.
# make install: the library, its header, the command and its manual page below PREFIX, and that below DESTDIR if it is given;
# make uninstall removes them.
.PHONY: demo test bench vectors secrets soak interop install uninstall fmt clean

PREFIX = /usr/local

demo:
	@hosts/demo $(if $(PACKAGE),"$(PACKAGE)")

test:
	@bash .ci/run

bench:
	@hosts/bench

vectors:
	@hosts/vectors target/vectors

secrets:
	@hosts/secrets

soak:
	@hosts/soak $(if $(SECONDS),$(SECONDS),60) $(SEED)

interop:
	@hosts/interop $(if $(COUNT),$(COUNT),60)

install:
	@DESTDIR="$(DESTDIR)" hosts/install "$(PREFIX)"

uninstall:
	@DESTDIR="$(DESTDIR)" hosts/install --remove "$(PREFIX)"

fmt:
	for crate in crates/*/; do (cd "$$crate" && rt fmt) || exit; done
	cd second && cargo fmt

clean:
	rm -rf target crates/*/out second/target
