package main

import "strconv"

// codes are the names of the error codes of go/types, of Go 1.19, by their numbers.
var codes = []string{
	"", "Test", "BlankPkgName", "MismatchedPkgName", "InvalidPkgUse", "BadImportPath", "BrokenImport", "ImportCRenamed", "UnusedImport",
	"InvalidInitCycle", "DuplicateDecl", "InvalidDeclCycle", "InvalidTypeCycle", "InvalidConstInit", "InvalidConstVal", "InvalidConstType",
	"UntypedNil", "WrongAssignCount", "UnassignableOperand", "NoNewVar", "MultiValAssignOp", "InvalidIfaceAssign", "InvalidChanAssign",
	"IncompatibleAssign", "UnaddressableFieldAssign", "NotAType", "InvalidArrayLen", "BlankIfaceMethod", "IncomparableMapKey", "InvalidIfaceEmbed",
	"InvalidPtrEmbed", "BadRecv", "InvalidRecv", "DuplicateFieldAndMethod", "DuplicateMethod", "InvalidBlank", "InvalidIota", "MissingInitBody",
	"InvalidInitSig", "InvalidInitDecl", "InvalidMainDecl", "TooManyValues", "NotAnExpr", "TruncatedFloat", "NumericOverflow", "UndefinedOp",
	"MismatchedTypes", "DivByZero", "NonNumericIncDec", "UnaddressableOperand", "InvalidIndirection", "NonIndexableOperand", "InvalidIndex",
	"SwappedSliceIndices", "NonSliceableOperand", "InvalidSliceExpr", "InvalidShiftCount", "InvalidShiftOperand", "InvalidReceive", "InvalidSend",
	"DuplicateLitKey", "MissingLitKey", "InvalidLitIndex", "OversizeArrayLit", "MixedStructLit", "InvalidStructLit", "MissingLitField",
	"DuplicateLitField", "UnexportedLitField", "InvalidLitField", "UntypedLit", "InvalidLit", "AmbiguousSelector", "UndeclaredImportedName",
	"UnexportedName", "UndeclaredName", "MissingFieldOrMethod", "BadDotDotDotSyntax", "NonVariadicDotDotDot", "MisplacedDotDotDot", "",
	"InvalidDotDotDot", "UncalledBuiltin", "InvalidAppend", "InvalidCap", "InvalidClose", "InvalidCopy", "InvalidComplex", "InvalidDelete",
	"InvalidImag", "InvalidLen", "SwappedMakeArgs", "InvalidMake", "InvalidReal", "InvalidAssert", "ImpossibleAssert", "InvalidConversion",
	"InvalidUntypedConversion", "BadOffsetofSyntax", "InvalidOffsetof", "UnusedExpr", "UnusedVar", "MissingReturn", "WrongResultCount",
	"OutOfScopeResult", "InvalidCond", "InvalidPostDecl", "", "InvalidIterVar", "InvalidRangeExpr", "MisplacedBreak", "MisplacedContinue",
	"MisplacedFallthrough", "DuplicateCase", "DuplicateDefault", "BadTypeKeyword", "InvalidTypeSwitch", "InvalidExprSwitch", "InvalidSelectCase",
	"UndeclaredLabel", "DuplicateLabel", "MisplacedLabel", "UnusedLabel", "JumpOverDecl", "JumpIntoBlock", "InvalidMethodExpr", "WrongArgCount",
	"InvalidCall", "UnusedResults", "InvalidDefer", "InvalidGo", "BadDecl", "RepeatedDecl", "InvalidUnsafeAdd", "InvalidUnsafeSlice",
	"UnsupportedFeature", "NotAGenericType", "WrongTypeArgCount", "CannotInferTypeArgs", "InvalidTypeArg", "InvalidInstanceCycle", "InvalidUnion",
	"MisplacedConstraintIface", "InvalidMethodTypeParams", "MisplacedTypeParam",
}

// codeName is the name of an error code.
func codeName(code int) string {
	if code < len(codes) {
		return codes[code]
	}
	return "code " + strconv.Itoa(code)
}
