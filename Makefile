# What one does most, by the scripts that do it. CONTRIBUTING.md lists the targets, and all scripts.
.DEFAULT_GOAL := help
.PHONY: help check quick test lint fmt docs release

PACKAGE := PYTHONPATH=$(CURDIR)/python python3

help:
	@sed -n 's/^\([a-z]*\): ## /make \1\t/p' Makefile | expand -t 16

check: ## proves every crate, lowest first, over what is kept
	rt all check

quick: ## proves what has changed, and runs rows and examples, in minutes
	tools/quick_test

test: ## runs the gate, which proves all from nothing
	.ci/run

lint: ## looks at layout, comments, code and types, and proves nothing
	tools/check_layout && tools/wrap_comments --check && tools/check_code && tools/try_python --lint

fmt: ## lays out the crates, the pages, the Python package and the crate for Rust
	for it in crates/*/; do (cd "$$it" && rt fmt) || exit; done && tools/wrap_comments && tools/try_python --fmt && cargo fmt --manifest-path rust/Cargo.toml

docs: ## writes anew the pages, pictures and tables that scripts make; wants the library, and python3-markdown
	$(PACKAGE) tools/print_pages && $(PACKAGE) tools/draw_pages && $(PACKAGE) tools/print_html && tools/believe --write-table

release: ## builds what is not built, and makes a release of it in release/
	bin/gregorio --build && tools/build_c && tools/make_release
