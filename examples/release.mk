# The gate of a release, `make -f release.mk`: fails unless this controller is certified to earn at least LEAST.
MODEL = tiger.POMDP
POLICY = tiger.pg
LEAST = 19.37
compare = import json, sys; from fractions import Fraction as F; low = json.load(sys.stdin)["controller"]["at_least"]; sys.exit(F(low) < F("$(LEAST)"))
.PHONY: gate
gate:
	mkdir -p release
	polcert-certify -q --json $(MODEL) $(POLICY) -o release > release/certificate.json
	python3 -c '$(compare)' < release/certificate.json
