package limits

const Last = 100 - c

const c = 1
