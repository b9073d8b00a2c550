package main

func g() { none() }
