# Sourced: what a proof of the program from nothing takes. README says the same (tools/documents.py looks).
first_proof='once, in 17 to 40 minutes on four cores, with the toolchain rt'
