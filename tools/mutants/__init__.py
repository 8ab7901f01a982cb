"""Mutation tests of the proofs: wrong steps that the prover has to refuse. README.md beside this file says how they are tried."""
