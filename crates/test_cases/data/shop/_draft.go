package main

func h() { none() }
