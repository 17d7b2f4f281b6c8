# `make run` patches a sample curve file; `make test` proves and tests everything.
.PHONY: run test

run:
	sh scripts/run.sh

test:
	bash scripts/test.sh
