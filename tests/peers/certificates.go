// Says what Go's golang.org/x/crypto/ssh makes of certificates. Standard input has a list of questions in JSON, and
// standard output gets the list of their answers.
package main

import (
	"bytes"
	"encoding/json"
	"fmt"
	"io"
	"net"
	"os"
	"strings"
	"time"

	"golang.org/x/crypto/ssh"
)

// What is asked: whether the certificate of Line is good for a user or a host of this Name, at a moment, to somebody
// who trusts the Authority alone, knows these critical Options, and holds these serials for Revoked.
type question struct {
	Line, Authority, As, Name string
	Moment                    int64
	Options                   []string
	Revoked                   []uint64
	// Whether a key without a certificate is taken.
	TakesKeys bool
	// For a connection: the key of the certificate, those of the host, and the address from which the client comes.
	Key, HostLine, HostKey, From string
}

// What comes back: the fault, if there is one, and what stands in the certificate.
type answer struct {
	Fault               string
	KeyId               string
	Serial              uint64
	Kind                uint32
	Principals          []string
	After, Before       uint64
	Options, Extensions map[string]string
}

// A connection of a user, of which a checker asks the name alone.
type asUser struct {
	ssh.ConnMetadata
	name string
}

func (it asUser) User() string { return it.name }

func keyOf(line string) ssh.PublicKey {
	key, _, _, _, err := ssh.ParseAuthorizedKey([]byte(line))
	if err != nil {
		panic(err)
	}
	return key
}

func (q question) checker() *ssh.CertChecker {
	authority := keyOf(q.Authority).Marshal()
	made := &ssh.CertChecker{
		SupportedCriticalOptions: q.Options,
		IsUserAuthority:          func(key ssh.PublicKey) bool { return bytes.Equal(authority, key.Marshal()) },
		IsHostAuthority: func(key ssh.PublicKey, address string) bool {
			return bytes.Equal(authority, key.Marshal()) && !strings.HasPrefix(address, "elsewhere")
		},
		Clock: func() time.Time { return time.Unix(q.Moment, 0) },
		IsRevoked: func(it *ssh.Certificate) bool {
			for _, serial := range q.Revoked {
				if serial == it.Serial {
					return true
				}
			}
			return false
		},
	}
	if q.TakesKeys {
		made.UserKeyFallback = func(ssh.ConnMetadata, ssh.PublicKey) (*ssh.Permissions, error) { return nil, nil }
		made.HostKeyFallback = ssh.InsecureIgnoreHostKey()
	}
	return made
}

// Whether the key or certificate is taken.
func (q question) checked() error {
	if q.As == "host" {
		return q.checker().CheckHostKey(q.Name, nil, keyOf(q.Line))
	}
	_, err := q.checker().Authenticate(asUser{name: q.Name}, keyOf(q.Line))
	return err
}

// A signer for the certificate of a line, with the key of this file.
func signer(line, file string) ssh.Signer {
	text, err := os.ReadFile(file)
	if err == nil {
		key, fault := ssh.ParsePrivateKey(text)
		if fault == nil {
			made, fault := ssh.NewCertSigner(keyOf(line).(*ssh.Certificate), key)
			if fault == nil {
				return made
			}
		}
		err = fault
	}
	panic(fmt.Sprint("no signer of ", file, ": ", err))
}

// Serves one connection of a user, with the host's certificate, and sends the forced command or none.
func (q question) serve(listener net.Listener) {
	config := &ssh.ServerConfig{PublicKeyCallback: q.checker().Authenticate}
	config.AddHostKey(signer(q.HostLine, q.HostKey))
	plain, err := listener.Accept()
	if err != nil {
		return
	}
	defer plain.Close()
	met, channels, requests, err := ssh.NewServerConn(plain, config)
	if err != nil {
		return
	}
	go ssh.DiscardRequests(requests)
	for asked := range channels {
		channel, _, err := asked.Accept()
		if err != nil {
			return
		}
		io.WriteString(channel, met.Permissions.CriticalOptions["force-command"])
		channel.Close()
	}
}

// Connects a user to a host, both with certificates, and returns what the host sends.
func (q question) connected() (string, error) {
	listener, err := net.Listen("tcp", "127.0.0.1:0")
	if err != nil {
		return "", err
	}
	defer listener.Close()
	go q.serve(listener)
	dialer := net.Dialer{LocalAddr: &net.TCPAddr{IP: net.ParseIP(q.From)}, Timeout: 20 * time.Second}
	plain, err := dialer.Dial("tcp", listener.Addr().String())
	if err != nil {
		return "", err
	}
	config := &ssh.ClientConfig{
		User:            q.Name,
		Auth:            []ssh.AuthMethod{ssh.PublicKeys(signer(q.Line, q.Key))},
		HostKeyCallback: q.checker().CheckHostKey,
	}
	_, port, _ := net.SplitHostPort(listener.Addr().String())
	connection, channels, requests, err := ssh.NewClientConn(plain, net.JoinHostPort("localhost", port), config)
	if err != nil {
		return "", err
	}
	client := ssh.NewClient(connection, channels, requests)
	defer client.Close()
	channel, _, err := client.OpenChannel("session", nil)
	if err != nil {
		return "", err
	}
	said, err := io.ReadAll(channel)
	return string(said), err
}

func (q question) answered() (given answer) {
	if _, _, _, _, err := ssh.ParseAuthorizedKey([]byte(q.Line)); err != nil {
		return answer{Fault: err.Error()}
	}
	err := error(nil)
	if q.HostLine == "" {
		err = q.checked()
	} else {
		given.KeyId, err = q.connected()
	}
	if err != nil {
		given.Fault = err.Error()
	}
	it, ok := keyOf(q.Line).(*ssh.Certificate)
	if !ok || q.HostLine != "" {
		return given
	}
	given.KeyId, given.Serial, given.Kind, given.Principals = it.KeyId, it.Serial, it.CertType, it.ValidPrincipals
	given.After, given.Before = it.ValidAfter, it.ValidBefore
	given.Options, given.Extensions = it.CriticalOptions, it.Extensions
	return given
}

func main() {
	questions, answers := []question{}, []answer{}
	if err := json.NewDecoder(os.Stdin).Decode(&questions); err != nil {
		panic(err)
	}
	for _, it := range questions {
		answers = append(answers, it.answered())
	}
	if err := json.NewEncoder(os.Stdout).Encode(answers); err != nil {
		panic(err)
	}
}
