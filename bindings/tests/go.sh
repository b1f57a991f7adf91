# The module: fetched by `go get` from the files of the module proxy, and used with the archive and with the system's library.
# shellcheck shell=bash disable=SC2154

export GOPATH=$room/go/path GOCACHE=$room/go/cache GOPROXY=file://$dist/go/proxy GOSUMDB=off GOTOOLCHAIN=local
module=$(sed -n 's/^module //p' "$dist/go/dnsm/go.mod")

used() {
  mkdir -p user/program && cp -r "$dist"/go/dnsm/examples/* user/ && cd user && go mod init user &&
    quoted go | sed "s:example.org/dnsm:$module:" >program/main.go && go get "$module@v$version" &&
    go build -o bin/ ./... && all_three bin && names bin/program && ! ldd bin/show | grep libdnsm
}

# The programs of the module's own page, as functions.
page() {
  mkdir user/page && awk -v module="$module" '
    BEGIN {
      print "package main\n\nimport (\n\"errors\"\n\"fmt\"\n\n\"" module "\"\n)\n\nfunc main() {}"
      head[1] = "func read(octets []byte) error {"
      head[2] = "func respond(out, query []byte, name string, addresses [][]byte) error {"
      tail[2] = "_ = response\nreturn err\n"
    }
    /^```go$/ { print head[++block]; inside = 1; next }
    /^```$/ && inside { print tail[block] "}"; inside = 0 }
    inside
    END { exit block != 2 }' "$dist/go/dnsm/README.md" >user/page/main.go && cd user && go vet ./page ./program
}

# `go mod vendor` keeps the archive, so the module works without the network.
vendored() {
  cd user && go mod vendor && GOPROXY=off go build -mod=vendor -o vendored/ ./... && writes vendored/write
}

# Go doesn't understand a path with a space from pkg-config.
system() {
  ln -s "$prefix" prefix && export PKG_CONFIG_PATH=$PWD/prefix/lib/pkgconfig LD_LIBRARY_PATH=$prefix/lib
  cd user && go build -tags dnsm_system -o system/ ./... && all_three system && ldd system/show | grep libdnsm.so.2
}

# Pointers that are passed to C are checked as far as Go can.
tested() {
  local check=GOEXPERIMENT=cgocheck2
  case $(go env GOVERSION) in go1.19* | go1.20*) check=GODEBUG=cgocheck=2 ;; esac
  cp -r "$dist/go/dnsm" module && cd module && env "$check" go test ./... && go vet ./... && test -z "$(gofmt -l .)"
}

without_cgo() {
  cd user && ! CGO_ENABLED=0 go build ./... 2>../said.txt && cat ../said.txt && grep -q needs_cgo ../said.txt
}

check go::used used go "$cc"
check go::page page go "$cc"
check go::vendored vendored go "$cc"
check go::system system go "$cc" pkg-config
check go::tested tested go "$cc"
check go::without_cgo without_cgo go
