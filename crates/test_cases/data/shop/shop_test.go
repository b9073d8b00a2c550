package main

func f() { none() }
