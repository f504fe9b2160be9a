// HCL's own reading, by its scanner and parser. Each number is of one type.
package main

import (
	"bufio"
	"fmt"
	"math"
	"os"

	"github.com/hashicorp/hcl/v2"
	"github.com/hashicorp/hcl/v2/hclsyntax"
)

func answer(text string) string {
	tokens, _ := hclsyntax.LexExpression([]byte(text), "", hcl.InitialPos)
	isOne := len(tokens) == 2 && tokens[0].Type == hclsyntax.TokenNumberLit
	if !isOne || string(tokens[0].Bytes) != text {
		return "-"
	}
	expression, diagnostics := hclsyntax.ParseExpression([]byte(text), "", hcl.InitialPos)
	if diagnostics.HasErrors() {
		return "-"
	}
	value, diagnostics := expression.Value(nil)
	if diagnostics.HasErrors() {
		return "-"
	}
	x, _ := value.AsBigFloat().Float64()
	return fmt.Sprintf("d%x", math.Float64bits(x))
}

func main() {
	lines := bufio.NewScanner(os.Stdin)
	out := bufio.NewWriter(os.Stdout)
	defer out.Flush()
	for lines.Scan() {
		fmt.Fprintln(out, answer(lines.Text()))
	}
}
