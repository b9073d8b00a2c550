// Package price has what prices have in common.
package price

// Least is the least price of all, in pence.
const Least = 1
