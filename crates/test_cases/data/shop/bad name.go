package main

func i() { none() }
