package store

import "example.com/shop/store/internal/disk"

func Size() int { return disk.Size() }
