"""Tests of the tools: python3 -m unittest discover tools/tests"""
