package report

import (
	"example.com//path"
	"example.com/shop"
	"example.com/shop/broken"
	"example.com/shop/latin"
	"example.com/shop/missing"
	"example.com/shop/mixed"
	"example.com/shop/store"
	"example.com/shop/store/internal/disk"
	"example.com/shop/store/internal/none"
	"fmt"
)

func Size() int { return store.Size() + disk.Size() }
