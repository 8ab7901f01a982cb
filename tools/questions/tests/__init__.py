"""Tests of the modules beside this folder: python3 -m unittest discover -s tools/questions/tests -t tools"""
