;;;; From a shell, by SBCL:  sbcl --script examples/lisp/chaosd.lisp get ..
;;;; Elsewhere the other files are loaded, and GET, PUT and SERVE are called.

(dolist (file '("package" "packets" "datagrams" "chudp" "udp" "connection" "host" "words" "files"
                "network" "client" "ncp" "server" "main"))
  (load (merge-pathnames (concatenate 'string file ".lisp") *load-truename*)))

(let ((*standard-input* (sb-sys:make-fd-stream 0 :input t :external-format :latin-1))
      (*standard-output* (sb-sys:make-fd-stream 1 :output t :external-format :latin-1)))
  (let ((status (chaosnet::main (rest sb-ext:*posix-argv*))))
    (finish-output)
    (sb-ext:exit :code status :abort t)))
