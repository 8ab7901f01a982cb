"""Tests of the modules beside this folder, without a prover: python3 -m unittest discover -s tools/mutants/tests -t tools"""
