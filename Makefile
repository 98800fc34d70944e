# make demo       proves and builds the program, and shows it on the file service of examples/
# make build      proves and builds it alone, and tells how far it is: by estimate 40 minutes on four
#                 processors from nothing. Broken off, it goes on where it was
# make try        asks the program as it is built without a proof, in a minute, as in
#                 make try ASK='share graph r client payroll'. The file service's texts are called graph,
#                 policy, rules, script and case there; GRAPH=FILE gives another graph. Without ASK a graph
#                 and rules come on standard input, as with ASK='< case'
# make quick      tries, without a proof, the tests of the crates that have changed since origin/main, and
#                 of those above them, and then the cases: minutes
# make quick-all  the same of all crates
# make test       the merge gate, rt ci: from nothing by estimate two hours on four processors of 2.5 GHz;
#                 minutes where a toolchain keeps on its machine what it proved
# make bodies     the wrong bodies alone, ten at once
# make refusals   the memory tests with each request for memory refused in turn: seconds, once the
#                 gate or rt test has built the tests
# make man        the manual page
# make help       these lines
#
# These take the program that is there, as make build or the gate left it, and prove nothing:
#
# make install    puts the program, its manual page, and completions for bash and zsh below PREFIX, as in
#                 make install PREFIX=$HOME/.local; where none is given it is /usr/local. DESTDIR stands
#                 before it for packagers
# make uninstall  takes these four files away again
# make examples   compares what each example prints with what is stored beside it
# make cases      gives the program what each case of cases/ asks, and compares how it ends: seconds
# make pictures   draws the examples; wants Graphviz
# make bench      time and peak memory of each command on heavy inputs, of 1,024 and of 4,096 vertices
# make memory     how much memory a cut asks for, counted and held against its bound: seconds
# make races      races of 16 seats, each report compared with a small model's
# make hostile    the program with bad files, outputs and words, and little memory; half a minute
# make fuzz       the program on random texts for a minute, each answer compared with a small model's
# make limits     the program on texts as large as may be, each answer compared with what it has to be
# make rbac       what tools/from_rbac makes of small clusters, and the program's answers on that
# make pipeline   the lines of examples/pipeline.yml, on a cluster and with commands that go wrong in turn

OFFICER = crates/officer/out/officer
PREFIX = /usr/local
PROGRAM = $(DESTDIR)$(PREFIX)/bin/officer
MANUAL = $(DESTDIR)$(PREFIX)/share/man/man1/officer.1
BASH_COMPLETIONS = $(DESTDIR)$(PREFIX)/share/bash-completion/completions/officer
ZSH_COMPLETIONS = $(DESTDIR)$(PREFIX)/share/zsh/site-functions/_officer
FILES = examples/file_service
GRAPH = $(FILES).graph

SHOP = examples/web_shop
KERNEL = examples/microkernel
TILLS = examples/tills
PICTURES = examples/pictures
TILLS_APART = python3 $(TILLS).py --apart
TRUSTED = --without 'serviceaccounts deploy/deployer'
TRUSTED_SHOP = tools/from_rbac $(SHOP).json $(TRUSTED) 2> /dev/null
MENDED_SHOP = grep -v '"RoleBinding".*"integration-tests"' $(SHOP).json | tools/from_rbac $(TRUSTED) 2> /dev/null
OPEN_KERNEL = echo 'edge nic_driver log_server g' | cat $(KERNEL).graph -
LESS_OF_CLUSTER = $(foreach kind,groups secrets pods services events,--without '$(kind) *')

# How many checks the gate runs side by side: one for each processor and each 5 GB of memory. One was seen to
# take more, 7 GB (the tests of tg_store), and those beside it less. Left to itself, rt ci reckons with up to
# 9.5 GB, and leaves processors idle.
RT_JOBS ?= $(shell awk -v most=$$(nproc) '/^MemTotal/ { n = int($$2 / 5e6); print n < 1 ? 1 : n < most ? n : most }' /proc/meminfo)

.PHONY: build demo there help examples cases pictures test bodies refusals man install uninstall bench memory races hostile fuzz limits rbac pipeline

build:
	@echo "Proving and building officer and the crates below it: by estimate 40 minutes on four processors from nothing, seconds after that."
	@python3 checks/build.py officer --lanes $(RT_JOBS)

# The program that is there: to prove one takes long, and is begun only where that is asked for.
there:
	@test -x "$(OFFICER)" || { echo "There is no $(OFFICER) yet: make build proves and builds it."; exit 1; }

# These prove nothing. ASK is a command line of the program.
.PHONY: try quick quick-all

try:
	@python3 checks/trial.py --graph "$(GRAPH)" -- "$$ASK"

quick:
	@python3 checks/quick.py

quick-all:
	@python3 checks/quick.py --all

# (the lines at the head of this file)
help:
	@sed -n '/^#/!q; s/^# \{0,1\}//p' Makefile

show = echo "== officer $(1)"; $(OFFICER) $(1)

demo: build
	@$(call show,< $(FILES).case)
	@$(call show,islands $(GRAPH))
	@$(call show,share $(GRAPH) r client payroll)
	@$(call show,derive $(GRAPH) r client payroll)
	@$(call show,apply $(GRAPH) $(FILES).derive.out)
	@$(call show,table $(GRAPH) r)
	@$(call show,who $(GRAPH) r payroll)
	@$(call show,reach $(GRAPH) client)
	@$(call show,verify $(GRAPH) $(FILES).policy --why) || [ $$? -eq 1 ]
	@$(call show,cut $(GRAPH) r client payroll)
	@$(call show,run $(GRAPH) $(FILES).script)

examples: there
	@$(OFFICER) < $(FILES).case | diff - $(FILES).case.out
	@$(OFFICER) apply $(GRAPH) $(FILES).rules | diff - $(FILES).case.out
	@$(OFFICER) apply $(GRAPH) $(FILES).refused.rules | diff - $(FILES).refused.out
	@$(OFFICER) check $(GRAPH) | diff - $(FILES).check.out
	@$(OFFICER) islands $(GRAPH) | diff - $(FILES).islands.out
	@$(OFFICER) share $(GRAPH) r client payroll | diff - $(FILES).share.out
	@$(OFFICER) derive $(GRAPH) r client payroll | diff - $(FILES).derive.out
	@$(OFFICER) derive $(GRAPH) rw client payroll | diff - $(FILES).both.out
	@$(OFFICER) derive $(GRAPH) t service clerk | diff - $(FILES).helpers.out
	@$(OFFICER) table $(GRAPH) r | diff - $(FILES).table.out
	@$(OFFICER) who $(GRAPH) r payroll | diff - $(FILES).who.out
	@$(OFFICER) reach $(GRAPH) client | diff - $(FILES).reach.out
	@$(OFFICER) verify $(GRAPH) $(FILES).policy --why | diff - $(FILES).verify.out
	@grep -v 'client clerk t' $(GRAPH) | $(OFFICER) verify /dev/stdin $(FILES).policy | diff - $(FILES).kept.out
	@$(OFFICER) verify $(GRAPH) $(FILES).policy > /dev/null; [ $$? -eq 1 ]
	@$(OFFICER) cut $(GRAPH) r client payroll | diff - $(FILES).cut.out
	@$(OFFICER) cut $(GRAPH) r client payroll --keep client clerk | diff - $(FILES).farther.out
	@$(OFFICER) cut $(GRAPH) r client payroll --keep client clerk --keep service clerk --keep service payroll | diff - $(FILES).none.out
	@$(OFFICER) apply $(GRAPH) $(FILES).cut.out | sed '1,/^graph$$/d' | $(OFFICER) share /dev/stdin r client payroll | grep -qx no
	@$(OFFICER) run $(GRAPH) $(FILES).script | diff - $(FILES).script.out
	@$(OFFICER) race $(GRAPH) $(FILES).race.script | diff - $(FILES).race.out
	@tools/from_rbac $(SHOP).json | diff - $(SHOP).graph
	@$(TRUSTED_SHOP) | diff - $(SHOP).trusted.graph
	@tools/from_rbac $(SHOP).json $(TRUSTED) 2>&1 > /dev/null | diff - $(SHOP).told.out
	@$(TRUSTED_SHOP) --policy | diff - $(SHOP).first.policy
	@$(TRUSTED_SHOP) --same $(SHOP).policy | diff - $(SHOP).trusted.graph
	@$(TRUSTED_SHOP) --same $(SHOP).broken.policy | diff - $(SHOP).trusted.graph
	@sed 's/"roleRef"/"role"/' $(SHOP).json | tools/from_rbac 2>&1 | diff - $(SHOP).faulty.out
	@sed 's/"ServiceAccount", "meta/"Pod", "meta/' $(SHOP).json | tools/from_rbac 2>&1 | diff - $(SHOP).foreign.out
	@python3 bench/cluster.py 8000 | tools/from_rbac 2>&1 | diff - $(SHOP).too_large.out
	@$(OFFICER) derive $(SHOP).graph r runner payment_key | diff - $(SHOP).runner.out
	@$(OFFICER) derive $(SHOP).graph r shop_team payment_key | diff - $(SHOP).team.out
	@$(OFFICER) share $(SHOP).trusted.graph r shop_team payment_key | diff - $(SHOP).trusted.out
	@$(OFFICER) who $(SHOP).trusted.graph r payment_key | diff - $(SHOP).who.out
	@$(OFFICER) reach $(SHOP).trusted.graph shop_team | diff - $(SHOP).reach.out
	@$(OFFICER) cut $(SHOP).trusted.graph r runner payment_key | diff - $(SHOP).cut.out
	@$(OFFICER) verify $(SHOP).trusted.graph $(SHOP).first.policy | diff - $(SHOP).first.out
	@$(OFFICER) verify $(SHOP).trusted.graph $(SHOP).policy | diff - $(SHOP).verify.out
	@$(OFFICER) verify $(SHOP).trusted.graph $(SHOP).policy > /dev/null
	@$(OFFICER) verify $(SHOP).trusted.graph $(SHOP).broken.policy --why | diff - $(SHOP).broken.out
	@$(MENDED_SHOP) | $(OFFICER) verify /dev/stdin $(SHOP).broken.policy | diff - $(SHOP).mended.out
	@$(OFFICER) islands $(KERNEL).graph | diff - $(KERNEL).islands.out
	@$(OFFICER) share $(KERNEL).graph r nic_driver keys | diff - $(KERNEL).share.out
	@$(OPEN_KERNEL) | $(OFFICER) derive /dev/stdin r nic_driver keys | diff - $(KERNEL).derive.out
	@$(OPEN_KERNEL) | $(OFFICER) cut /dev/stdin r nic_driver keys | diff - $(KERNEL).cut.out
	@bash -c 'diff <(python3 $(TILLS).py | $(OFFICER) check /dev/stdin) <(python3 $(TILLS).py)'
	@python3 $(TILLS).py | $(OFFICER) derive /dev/stdin d till_17_04 ledger_17 | diff - $(TILLS).derive.out
	@$(TILLS_APART) | $(OFFICER) share /dev/stdin d till_17_04 ledger_17 | diff - $(TILLS).share.out
	@$(TILLS_APART) | $(OFFICER) table /dev/stdin d | grep ' .*1' | cut -d ' ' -f 1 | diff - $(TILLS).deleters.out
	@$(TILLS_APART) | $(OFFICER) islands /dev/stdin | diff - $(TILLS).islands.out
	@$(TILLS_APART) | $(OFFICER) derive /dev/stdin a till_17_04 ledger_18 | diff - $(TILLS).append.out
	@$(TILLS_APART) | $(OFFICER) verify /dev/stdin $(TILLS).policy | diff - $(TILLS).verify.out
	@python3 $(TILLS).py | $(OFFICER) verify /dev/stdin $(TILLS).broken.policy --why | diff - $(TILLS).broken.out
	$(call each_picture,compare_picture)
	@echo "Each example prints what is stored beside it."

cases: there
	@python3 checks/cases.py $(OFFICER)

# The pictures: of each its name, the text that is drawn, and what is asked of it.
define each_picture
$(call $(1),file_service,cat $(GRAPH))
$(call $(1),file_service.derive,cat $(GRAPH),--derive t service clerk)
$(call $(1),file_service.share,cat $(GRAPH),--share r payroll)
$(call $(1),web_shop,cat $(SHOP).graph)
$(call $(1),web_shop.team,cat $(SHOP).graph,--derive r shop_team payment_key)
$(call $(1),web_shop.runner,cat $(SHOP).trusted.graph,--derive r runner payment_key)
$(call $(1),web_shop.share,cat $(SHOP).trusted.graph,--share r payment_key)
$(call $(1),web_shop.cut,cat $(SHOP).trusted.graph,--cut r runner payment_key)
$(call $(1),microkernel,cat $(KERNEL).graph)
$(call $(1),microkernel.derive,$(OPEN_KERNEL),--derive r nic_driver keys)
$(call $(1),microkernel.cut,$(OPEN_KERNEL),--cut r nic_driver keys)
$(call $(1),tills.derive,python3 $(TILLS).py,--derive d till_17_04 ledger_17)
$(call $(1),cluster,python3 bench/cluster.py 840 | tools/from_rbac $(LESS_OF_CLUSTER) 2> /dev/null)
endef

draw = $(2) | tools/picture /dev/stdin $(3) --officer $(OFFICER)
compare_picture = @$(draw) | diff - $(PICTURES)/$(1).dot
write_picture = @$(draw) > $(PICTURES)/$(1).dot && dot -Tsvg $(PICTURES)/$(1).dot -o $(PICTURES)/$(1).svg

pictures: there
	@command -v dot > /dev/null || { echo "The pictures want Graphviz: apt install graphviz, dnf install graphviz or brew install graphviz."; exit 1; }
	$(call each_picture,write_picture)
	@echo "The pictures are in $(PICTURES)."

test:
	@RT_JOBS=$(RT_JOBS) rt ci

bodies:
	@python3 checks/wrong_bodies.py

refusals:
	@python3 checks/refusals.py

man:
	@man ./docs/officer.1

# It proves nothing, so that root may call it where the toolchain is another's.
install: there
	@case "$(PREFIX)" in "~"*) echo 'PREFIX begins with ~, which the shell has left as it is: write $$HOME.'; exit 1;; esac
	@install -D -m 755 "$(OFFICER)" "$(PROGRAM)"
	@install -D -m 644 docs/officer.1 "$(MANUAL)"
	@install -D -m 644 completions/officer.bash "$(BASH_COMPLETIONS)"
	@install -D -m 644 completions/_officer "$(ZSH_COMPLETIONS)"
	@echo "$(PROGRAM) is in place, with its manual page and completions for bash and zsh."

uninstall:
	@rm -f "$(PROGRAM)" "$(MANUAL)" "$(BASH_COMPLETIONS)" "$(ZSH_COMPLETIONS)"
	@echo "$(PROGRAM) is gone, with its manual page and completions."

bench: there
	@python3 bench/bench.py $(OFFICER)
	@for objects in 1000 7000; do \
		echo "A cluster of $$objects objects, from its listing to its islands:"; \
		listing=$$(mktemp); python3 bench/cluster.py $$objects > $$listing; \
		bash -c "time -p tools/from_rbac $$listing | $(OFFICER) islands /dev/stdin > /dev/null"; \
		rm -f $$listing; \
	done

memory: there
	@python3 checks/memory.py $(OFFICER)

races: there
	@python3 checks/races.py $(OFFICER)

hostile: there
	@python3 checks/hostile.py $(OFFICER)

fuzz: there
	@python3 checks/fuzz.py $(OFFICER)

limits: there
	@python3 checks/limits.py $(OFFICER)

rbac: there
	@python3 checks/rbac.py $(OFFICER)

pipeline: there
	@python3 checks/pipeline.py $(OFFICER)
