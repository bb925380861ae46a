// Peer writes and reads indexed export data with golang.org/x/tools, so that times can be compared with exportdata's.
//
//	peer write SOURCE OUT   checks one Go file as the package p and writes its full file
//	peer show FILE          reads the full file of the package p and prints each of its objects, a line each
//	peer read FILE          reads it, with all its objects, and prints how many there are
package main

import (
	"bufio"
	"fmt"
	"go/ast"
	"go/parser"
	"go/token"
	"go/types"
	"log"
	"os"

	"golang.org/x/tools/go/gcexportdata"
)

func main() {
	log.SetFlags(0)
	words := os.Args[1:]
	switch {
	case len(words) == 3 && words[0] == "write":
		write(words[1], words[2])
	case len(words) == 2 && words[0] == "show":
		show(load(words[1]))
	case len(words) == 2 && words[0] == "read":
		fmt.Println(len(load(words[1]).Scope().Names()))
	default:
		log.Fatal("usage: peer write SOURCE OUT | peer show FILE | peer read FILE")
	}
}

func write(source, target string) {
	files := token.NewFileSet()
	tree, err := parser.ParseFile(files, source, nil, 0)
	if err != nil {
		log.Fatal(err)
	}
	checked, err := new(types.Config).Check("p", files, []*ast.File{tree}, nil)
	if err != nil {
		log.Fatal(err)
	}
	out, err := os.Create(target)
	if err != nil {
		log.Fatal(err)
	}
	buffered := bufio.NewWriter(out)
	if err := gcexportdata.Write(buffered, files, checked); err != nil {
		log.Fatal(err)
	}
	if err := buffered.Flush(); err != nil {
		log.Fatal(err)
	}
}

// The importer reads each declaration that it finds in the index.
func load(name string) *types.Package {
	file, err := os.Open(name)
	if err != nil {
		log.Fatal(err)
	}
	defer file.Close()
	read, err := gcexportdata.Read(bufio.NewReader(file), token.NewFileSet(), make(map[string]*types.Package), "p")
	if err != nil {
		log.Fatal(err)
	}
	return read
}

func show(read *types.Package) {
	out := bufio.NewWriterSize(os.Stdout, 1<<16)
	scope := read.Scope()
	for _, name := range scope.Names() {
		object := scope.Lookup(name)
		fmt.Fprintln(out, object)
		named, ok := object.Type().(*types.Named)
		if _, isType := object.(*types.TypeName); !isType || !ok {
			continue
		}
		for i := 0; i < named.NumMethods(); i++ {
			fmt.Fprintln(out, named.Method(i))
		}
	}
	if err := out.Flush(); err != nil {
		log.Fatal(err)
	}
}
