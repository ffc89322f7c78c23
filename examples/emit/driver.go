// Does what the lines on standard input say with a type that `emit` wrote; drivers.py appends the types.
package main

import (
	"bufio"
	"encoding/hex"
	"encoding/json"
	"errors"
	"fmt"
	"os"
	"strconv"
	"strings"
)

type replica interface {
	act(at int, a []string)
	answer(at int, a []string) string
	join(other replica) string
	less(known replica) replica
	text() string
	keys() string
	copy() replica
	same(other replica) bool
	share() (string, string)
	marks() (string, string)
	packet(known replica) (string, string)
	take(text string) string
}

func must(err error) {
	if err != nil {
		panic(err)
	}
}

func number(text string) int64 {
	n, err := strconv.ParseInt(text, 10, 64)
	must(err)
	return n
}

func word(it any) string {
	text, err := json.Marshal(it)
	must(err)
	return string(text)
}

func taken(it, packet, shipped replica, read func(string) replica) string {
	now, old, kept, before := it.copy(), read(it.text()), it.copy(), it.text()
	now.join(read(packet.less(it).text()))
	old.join(packet.less(shipped))
	changed := it.join(packet)
	if now.same(it) && old.same(it) && kept.text() == before {
		return changed
	}
	return "a difference isn't enough"
}

// quoted gives a text in quotes, or why there is none.
func quoted(text, problem string) string {
	if problem != "" {
		return problem
	}
	return word(text)
}

func took(it replica, text string) string {
	before, _ := it.share()
	problem := it.take(text)
	after, _ := it.share()
	if problem != "" && after != before {
		return "a packet that is refused changes something"
	}
	return quoted(after, problem)
}

func plain(it replica, read func(string) replica) string {
	bare, whole := read(it.text()), it.copy()
	whole.join(bare)
	own, _ := it.packet(it)
	words := []string{quoted(bare.share()), quoted(bare.marks()), quoted(bare.packet(it)), bare.take(own), quoted(whole.share())}
	return strings.Join(words, " ")
}

func unhexed(text string) string {
	bytes, err := hex.DecodeString(text)
	must(err)
	return string(bytes)
}

func drive(fresh func(int) replica, read func(string) replica, reshare func(string) (replica, string)) {
	var told []string
	kept := map[int]replica{}
	var replicas, shipped []replica
	packets := map[string]replica{}
	in := bufio.NewScanner(os.Stdin)
	in.Buffer(make([]byte, 1<<24), 1<<24)
	for in.Scan() {
		words := strings.Split(in.Text(), " ")
		at := func(place int) int { return int(number(words[place])) }
		switch words[0] {
		case "begin":
			replicas, shipped = nil, nil
			for n := 1; n <= at(1); n++ {
				replicas, shipped = append(replicas, fresh(n)), append(shipped, fresh(n))
			}
		case "do":
			replicas[at(1)-1].act(at(2), words[3:])
		case "ask":
			fmt.Println(replicas[at(1)-1].answer(at(2), words[3:]))
		case "ship":
			shipped[at(1)-1] = read(replicas[at(1)-1].text())
			packets[words[2]] = shipped[at(1)-1].copy()
		case "deliver":
			fmt.Println(taken(replicas[at(2)-1], packets[words[1]], shipped[at(2)-1], read))
		case "show":
			fmt.Println(strings.TrimSpace(replicas[at(1)-1].text()))
			fmt.Println(replicas[at(1)-1].keys())
		case "shares":
			replicas, told = nil, nil
			for n := 1; n <= at(1); n++ {
				replicas = append(replicas, fresh(n))
			}
			kept = map[int]replica{0: fresh(32)}
		case "share":
			fmt.Println(quoted(replicas[at(1)-1].share()))
		case "keep":
			text, _ := replicas[at(1)-1].share()
			kept[at(2)], _ = reshare(text)
		case "packet":
			text, problem := replicas[at(1)-1].packet(kept[at(2)])
			told = append(told, text)
			fmt.Println(quoted(text, problem))
		case "take":
			fmt.Println(took(replicas[at(1)-1], told[at(2)]))
		case "spoiled":
			fmt.Println(took(replicas[at(1)-1], unhexed(words[2])))
		case "restart":
			replicas[at(1)-1] = kept[at(2)].copy()
			fmt.Println(quoted(replicas[at(1)-1].share()))
		case "reshare":
			it, problem := reshare(unhexed(words[1]))
			if problem == "" {
				fmt.Println(quoted(it.share()))
			} else {
				fmt.Println(problem)
			}
		case "plain":
			fmt.Println(plain(replicas[at(1)-1], read))
		default:
			if it := read(unhexed(words[1])); it != nil {
				fmt.Println(strings.TrimSpace(it.text()))
			} else {
				fmt.Println("refused")
			}
		}
	}
}

