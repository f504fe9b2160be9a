// Go's own readings: GO by go/scanner and go/constant, GO_PARSE_FLOAT by strconv, and PROMETHEUS,
// which refuses `p` and `_` before it calls that.
package main

import (
	"bufio"
	"fmt"
	"go/constant"
	"go/scanner"
	"go/token"
	"math"
	"os"
	"strconv"
	"strings"
)

func literal(text string) string {
	var s scanner.Scanner
	files := token.NewFileSet()
	isRefused := false
	refuse := func(token.Position, string) { isRefused = true }
	s.Init(files.AddFile("", files.Base(), len(text)), []byte(text), refuse, 0)
	_, kind, found := s.Scan()
	if isRefused || found != text || kind != token.INT && kind != token.FLOAT {
		return "-"
	}
	value := constant.MakeFromLiteral(text, kind, 0)
	if kind == token.INT {
		return "i" + constant.ToInt(value).ExactString()
	}
	if value.Kind() == constant.Unknown {
		// the exponent is too large for it
		return "f?"
	}
	x, _ := constant.Float64Val(value)
	return fmt.Sprintf("f%x", math.Float64bits(x))
}

func parseFloat(text string) string {
	x, err := strconv.ParseFloat(text, 64)
	if err != nil && err.(*strconv.NumError).Err == strconv.ErrSyntax {
		return "-"
	}
	return fmt.Sprintf("f%x", math.Float64bits(x))
}

func prometheus(text string) string {
	if strings.ContainsAny(text, "pP_") {
		return "-"
	}
	return parseFloat(text)
}

func main() {
	read := literal
	switch os.Getenv("FORM") {
	case "GO_PARSE_FLOAT":
		read = parseFloat
	case "PROMETHEUS":
		read = prometheus
	}
	lines := bufio.NewScanner(os.Stdin)
	out := bufio.NewWriter(os.Stdout)
	defer out.Flush()
	for lines.Scan() {
		fmt.Fprintln(out, read(lines.Text()))
	}
}
