;;;; Tests over a link in memory, of all but the socket and the command line. They run in the folder
;;;; of the repository, and need a folder DIR for files, which has to be empty, with a slash:
;;;;   sbcl --script examples/lisp/tests.lisp DIR      (or clisp, or ecl --shell)

(defparameter cl-user::*here* *load-truename*)

(defun cl-user::load-here (name)
  (load (merge-pathnames (concatenate 'string name ".lisp") cl-user::*here*)))

(mapc #'cl-user::load-here '("package" "packets" "datagrams" "chudp" "memory" "connection" "host"
                             "words" "files" "network" "client" "ncp" "server"))

(in-package :chaosnet)

(defvar *passed* 0)
(defvar *failed* 0)

(defmacro check (form wanted)
  `(let ((came ,form) (wanted ,wanted))
     (cond ((equalp came wanted) (incf *passed*))
           (t (incf *failed*)
              (format t "not ok: ~s~%  gave   ~s~%  wanted ~s~%" ',form came wanted)))))

(defun words-of-shell ()
  #+sbcl (rest sb-ext:*posix-argv*)
  #+clisp ext:*args*
  #+ecl (rest (member "--" (loop for i below (si:argc) collect (si:argv i)) :test #'string=)))

(defparameter *folder* (or (first (last (words-of-shell))) "/tmp/"))

(defun hex (string)
  (let ((digits (remove-if-not #'alphanumericp string)))
    (map '(vector octet) #'identity
         (loop for i from 0 below (length digits) by 2
               collect (parse-integer digits :start i :end (+ i 2) :radix 16)))))

(defun returns (string) (substitute +return+ #\^ string))

;;; The test vectors: a list of (comments octets report) of each file

(defun lines-of (name)
  (with-open-file (stream (merge-pathnames (join "../vectors/" name ".txt") cl-user::*here*))
    (loop for line = (read-line stream nil)
          while line collect line)))

(defun blocks (name)
  (let ((blocks '()) (comments '()))
    (dolist (line (lines-of name) (nreverse blocks))
      (cond ((string= line "") (setf comments '()))
            ((char= #\# (char line 0)) (push (subseq line 2) comments))
            ((char= #\Space (char line 0)) (push (subseq line 2) (third (first blocks))))
            (t (push (list comments (hex line) '()) blocks))))))

(defparameter *names*
  '((1 . "RFC") (2 . "OPN") (3 . "CLS") (4 . "FWD") (5 . "ANS") (6 . "SNS") (7 . "STS") (9 . "LOS")
    (10 . "LSN") (12 . "EOF") (13 . "UNC")))

(defun packet-report (packet)
  "The lines that `show` prints of a packet."
  (let* ((opcode (pkt-opcode packet))
         (data (pkt-data packet))
         (name (cond ((>= opcode #o300) "DWD")
                     ((>= opcode #o200) "DAT")
                     (t (cdr (assoc opcode *names*))))))
    (flet ((told (control &rest arguments) (apply #'format nil control arguments))
           (word (at) (+ (aref data at) (* 256 (aref data (1+ at))))))
      (append
       (list (join (told "op ~3,'0o" opcode) (if name " " "") (or name ""))
             (told "fwd ~d count ~d" (pkt-forwarded packet) (length data))
             (told "to ~6,'0o ~6,'0o" (pkt-to packet) (pkt-to-index packet))
             (told "from ~6,'0o ~6,'0o" (pkt-from packet) (pkt-from-index packet))
             (told "num ~d ack ~d" (pkt-number packet) (pkt-acknowledgement packet)))
       (cond ((and (member opcode (list +opn+ +sts+)) (status-p packet))
              (list (told "receipt ~d window ~d" (word 0) (word 2))))
             ((plusp (length data))
              (list (apply #'join "data" (map 'list (lambda (octet) (told " ~2,'0x" octet))
                                              data)))))))))

(defun report (octets)
  "The lines that `show` prints of a datagram, without empty ones."
  (multiple-value-bind (packets fault) (datagram-packets octets (length octets))
    (cond (fault (list (join "fault " fault)))
          ((= 1 (aref octets 2)) (packet-report (first packets)))
          (t (cons (join "carriage 2 packets " (decimal (length packets)))
                   (mapcan (lambda (packet) (append (list "") (packet-report packet)))
                           packets))))))

(defun free-p (comments)
  "Does the datagram have something in what is free?"
  (find-if (lambda (comment) (search "is ignored" comment)) comments))

(defun test-vectors ()
  (dolist (name '("datagrams" "session" "losses" "recovery"))
    (loop for (comments octets told) in (blocks name)
          do (let ((packets (datagram-packets octets (length octets))))
               (check (remove "" (report octets) :test #'string=)
                      (remove "" (reverse told) :test #'string=))
               (when (and packets (not (free-p comments)))
                 (check (datagram (aref octets 2) packets) octets))))))

;;; The sessions of the vectors, played by either end

(defun empty-folder ()
  (dolist (path '("A" "B" "A.LISP"))
    (when (probe-file (native (join *folder* path)))
      (delete-file (native (join *folder* path))))))

(defun bare-host (address version)
  (make-host :address address :version version :link (make-link) :last-index 0
             :contacts (if (= address #o401) '("FILE") '())))

(defun next-sent (host)
  "The next datagram that the host sends: what waits, or what is due half a second later."
  (flush host)
  (unless *sent*
    (incf *now* 500)
    (mapc #'tick (host-connections host))
    (flush host))
  (let ((octets (first (last *sent*))))
    (setf *sent* (butlast *sent*))
    octets))

(defun say-again (host conn packet)
  "Lets the client's user do what this packet of the session came from."
  (loop while (read-item conn))
  (when (/= (pkt-number packet) (conn-sent conn))
    (cond ((item-opcode-p (pkt-opcode packet))
           (write-item conn (pkt-opcode packet) (pkt-data packet)))))
  (flush host))

(defun play (name address)
  "Plays the end with this address against the datagrams of its peer. Each that it sends is the one
of the session."
  (setf *sent* '() *now* 0)
  (empty-folder)
  (let* ((blocks (blocks name))
         (version (aref (second (first blocks)) 2))
         (host (bare-host address version))
         (client (= address #o402))
         (conn (and client (request host #o401 "FILE"))))
    (loop for (comments octets) in blocks
          do (dolist (packet (datagram-packets octets (length octets)))
               (cond ((= (pkt-from packet) address)
                      (when (and client (null *sent*) (null (host-outbox host)))
                        (say-again host conn packet))
                      (check (next-sent host) octets))
                     ((not (member "It is lost." comments :test #'string=))
                      (loop repeat (if (member "It comes twice." comments :test #'string=) 2 1)
                            do (deliver host packet)
                               (unless client
                                 (dolist (conn (host-connections host))
                                   (serve-connection conn *folder* t)))
                               (flush host))))))
    (check *sent* '())
    (unless client (check (host-connections host) '()))))

(defun with-first-number (number function)
  (let ((old #'first-number))
    (setf (fdefinition 'first-number) (lambda () number))
    (unwind-protect (funcall function)
      (setf (fdefinition 'first-number) old))))

(defun test-sessions ()
  (dolist (name '("session" "losses" "recovery"))
    (with-first-number 65530 (lambda () (play name #o401)))
    (with-first-number 65534 (lambda () (play name #o402)))))

;;; Windows, by the examples of docs/PROTOCOL.md

(defun bare-connection (window)
  (make-connection :host (make-host :address 1 :link (make-link) :window window) :peer 2 :index 1
                   :state :open :window window :held (make-array window :initial-element nil)
                   :sent 65533 :receipted 65533 :acknowledged 65533 :last-read 65535
                   :heard 0 :last-sent 0 :probed 0))

(defun test-windows ()
  (let ((conn (bare-connection 4)))
    (flet ((numbers () (mapcar #'item-number (conn-kept conn))))
      (write-item conn +data+ (octets "A"))
      (take-acknowledgement conn 65534)
      (dotimes (i 4) (write-item conn +data+ (octets "A")))
      (check (may-write-p conn) nil)
      (take-receipt conn 3)
      (check (numbers) '(65535 0 1 2))
      (take-receipt conn 0)
      (check (numbers) '(1 2))
      (check (outstanding conn) 4)))
  (let ((conn (bare-connection 3)))
    (flet ((receipt-after (number)
             (hold conn (make-packet :opcode +data+ :number number))
             (further (conn-last-read conn) (unbroken conn))))
      (check (receipt-after 1) 65535)
      (check (receipt-after 0) 1)
      (read-item conn)
      (read-item conn)
      (check (conn-last-read conn) 1)
      (check (receipt-after 65535) 1)
      (check (receipt-after 2) 2))))

(defun test-bundles ()
  (let ((packets (append (loop repeat 20 collect (make-packet :to 1 :data (make-octets 10)))
                         (loop repeat 9 collect (make-packet :to 1 :data (make-octets 488)))
                         (loop repeat 3 collect (make-packet :to 2))))
        (counts '()))
    (send-packets packets 2 (lambda (address octets)
                              (declare (ignore address))
                              (check (<= (length octets) 1472) t)
                              (push (length (datagram-packets octets (length octets))) counts)))
    (check (reverse counts) '(8 8 6 2 2 2 1 3))))

;;; CHUDP: datagrams, the next hop of each, and what `show` would print of its packet

(defparameter *chudp-vectors*
  '(("01 01 00 00 07 00 00 04 01 01 02 01 01 02 03 05 00 00 00 10 00 12 00 0D 01 01 01 02 EF C0"
     "op 007 STS" "fwd 0 count 4" "to 000401 001001" "from 000402 001405" "num 0 ack 16"
     "receipt 18 window 13")
    ("01 01 00 00 80 00 00 01 01 01 02 01 01 02 03 05 00 05 00 10 00 41 01 01 01 02 76 9C"
     "op 200 DAT" "fwd 0 count 1" "to 000401 001001" "from 000402 001405" "num 5 ack 16"
     "data 41")
    ("01 01 00 00 01 00 00 04 01 01 00 00 01 02 03 05 00 07 00 00 4F 4E 45 4E 01 01 01 02 63 4D"
     "op 001 RFC" "fwd 0 count 4" "to 000401 000000" "from 000402 001405" "num 7 ack 0"
     "data 4E 4F 4E 45")))

(defun chudp-fault (octets) (nth-value 1 (chudp-packets octets (length octets))))

(defun with-sum (octets)
  "OCTETS, whose last two are made the sum of all behind the head."
  (let* ((end (- (length octets) 2))
         (sum (logxor #xFFFF (ones-sum octets 4 end))))
    (replace octets (list (ash sum -8) (ldb (byte 8 0) sum)) :start1 end)))

(defun test-chudp-vectors ()
  (loop for (digits . told) in *chudp-vectors*
        for octets = (hex digits)
        for packet = (first (chudp-packets octets (length octets)))
        do (check (packet-report packet) told)
           (check (chudp-datagram packet #o401) octets)
           (check (chudp-fault (with-sum (copy-seq octets))) nil)
           (dotimes (bit (* 8 (length octets)))
             (let ((other (copy-seq octets))
                   (at (floor bit 8)))
               (setf (aref other at) (logxor (aref other at) (ash 1 (mod bit 8))))
               (check (not (chudp-packets other (length other))) (not (<= 2 at 3)))))))

(defun last-word (line)
  (subseq line (1+ (or (position #\Space line :from-end t) -1))))

(defun test-chudp-file ()
  "The vectors of CHUDP. A fault has another number here, and no link gives more than a buffer has."
  (loop for (comments octets told) in (blocks "chudp")
        for size = (length octets)
        do (multiple-value-bind (packets fault) (chudp-packets octets size)
             (flet ((word-of-trailer (at) (word-at octets (+ at (- size +trailer-size+)))))
               (cond (packets
                      (check (append (packet-report (first packets))
                                     (list (format nil "trailer to ~6,'0o from ~6,'0o"
                                                   (word-of-trailer 0) (word-of-trailer 2))
                                           (format nil "sum ~4,'0x" (word-of-trailer 4))))
                             (reverse told))
                      (unless (or (free-p comments)
                                  (/= (word-of-trailer 2) (pkt-from (first packets))))
                        (check (chudp-datagram (first packets) (word-of-trailer 0)) octets)))
                     ((<= size +most-datagram+)
                      (check (last-word fault) (last-word (first told))))
                     (t (check (first told) "fault 1 TooLong")))))))

(defun test-chudp-faults ()
  (let ((octets (hex (first (second *chudp-vectors*)))))
    (flet ((changed (at octet)
             (let ((other (copy-seq octets)))
               (setf (aref other at) octet)
               (with-sum other)))
           (longer (count)
             (with-sum (concatenate '(vector octet) octets (make-octets count)))))
      (check (chudp-fault (hex "")) "Short")
      (check (chudp-fault (hex "010100")) "Short")
      (check (chudp-fault (subseq octets 0 24)) "Short")
      (check (chudp-fault (concatenate '(vector octet) octets #(0))) "Short")
      (check (chudp-fault (changed 0 2)) "BadVersion")
      (check (chudp-fault (changed 1 2)) "BadFunction")
      (check (chudp-fault (hex "43480100")) "BadVersion")
      (check (chudp-fault (concatenate '(vector octet) octets #(0 1))) "BadSum")
      (check (chudp-fault (changed 7 3)) "3 Truncated")
      (check (chudp-fault (changed 6 2)) "2 BadCount")
      (check (chudp-fault (longer 2)) "5 Trailing")
      (check (chudp-fault (longer 600)) "5 Trailing"))
    (let ((bridged (chudp-datagram (first (chudp-packets octets (length octets))) #o3040)))
      (check (subseq bridged 0 22) (subseq octets 0 22))
      (check (subseq bridged 22 26) (hex "06 20 01 02"))
      (check (chudp-fault bridged) nil))))

(defun test-next-hop ()
  "A host behind a bridge gives the bridge's address in the trailer of each datagram."
  (let ((host (bare-host #o402 :chudp)))
    (setf *sent* '() (host-bridge host) #o3040)
    (request host #o401 "FILE")
    (flush host)
    (let* ((octets (first *sent*))
           (at (- (length octets) +trailer-size+)))
      (check (subseq octets at (+ at 4)) (hex "06 20 01 02"))
      (check (datagram-packets octets (length octets)) nil)
      (check (pkt-to (first (chudp-packets octets (length octets)))) #o401))))

;;; FILE

(defun test-dialogue ()
  (empty-folder)
  (let ((session (make-session :folder *folder*)))
    (loop for (command reply)
          in '(("T0  DELETE^A" "T0  ERROR NLI Not logged in.")
               ("T1  LOGIN LISPM" "T1  LOGIN LISPM")
               ("T2 H1 OPEN WRITE^A.LISP" "T2 H1 OPEN 0")
               ("T3 H1 WRITE^(A)" "T3 H1 WRITE 3")
               ("T3 H1 READ" "T3 H1 ERROR WRK Wrong kind of handle.")
               ("T4 H1 CLOSE" "T4 H1 CLOSE 3")
               ("T4 H1 CLOSE" "T4 H1 ERROR NOH No such handle.")
               ("T5 H2 OPEN READ^A.LISP" "T5 H2 OPEN 3")
               ("T5 H2 OPEN READ^A.LISP" "T5 H2 ERROR HIU Handle in use.")
               ("T6 H2 READ" "T6 H2 READ^(A)")
               ("T7 H2 READ" "T7 H2 EOF")
               ("T8 H2 CLOSE" "T8 H2 CLOSE 3")
               ("T9  RENAME^A.LISP^A.LISP" "T9  ERROR FAE File exists.")
               ("T9  RENAME^A.LISP^B" "T9  RENAME")
               ("T9  RENAME^B^C^D" "T9  ERROR ILP Illegal path.")
               ("T9  RENAME^B" "T9  ERROR SYN Bad command syntax.")
               ("T10  DELETE^A.LISP" "T10  ERROR FNF No such file.")
               ("T10  DELETE^.LISP" "T10  ERROR ILP Illegal path.")
               ("T11 H OPEN APPEND^B" "T11 H ERROR SYN Bad command syntax.")
               ("T11 H read" "T11 H ERROR UKC Unknown command.")
               ("T11 H " "T11 H ERROR SYN Bad command syntax.")
               ("T11" "  ERROR SYN Bad command syntax.")
               ("T12  DELETE^B" "T12  DELETE"))
          do (check (obey session (returns command)) (returns reply)))))

(defun serve-once (server)
  (turn server)
  (dolist (conn (host-connections server))
    (serve-connection conn *folder* t)))

(defmacro with-two-hosts ((client server window &optional (version 1)) &body body)
  "CLIENT is a client, and SERVER the host that serves while it waits."
  `(let* ((,client (open-client :address #o402 :place "127.0.0.1:1" :window ,window
                                :server "401=127.0.0.1:2" :carriage ,version))
          (,server (bare-host #o401 ,version))
          (serving nil)
          (*while-waiting* (lambda ()
                             (unless serving
                               (setf serving t)
                               (serve-once ,server)
                               (setf serving nil)))))
     (setf (link-other (host-link (client-network ,client))) (host-link ,server)
           (link-other (host-link ,server)) (host-link (client-network ,client)))
     ,@body))

(defun some-octets (count)
  (let ((octets (make-octets count)))
    (dotimes (i count octets)
      (setf (aref octets i) (random 256)))))

(defun test-files (bad window sizes &optional (version 1))
  (let ((*bad* bad))
    (with-two-hosts (client server window version)
      (dolist (size sizes)
        (let ((octets (some-octets size)))
          (put client "A" octets)
          (check (equalp (get client "A") octets) t)))
      (check (handler-case (get client "B")
               (refused (condition) (error-text condition)))
             "FNF No such file.")
      (check (length (get client "A")) (first (last sizes)))
      (check (say client "" (line "DELETE") "A") "DELETE")
      (close-client client)
      (loop repeat 10000 while (host-connections server)
            do (link-wait nil 10))
      (check (host-connections server) '()))))

(defun test-ends ()
  (with-two-hosts (client server 13)
    (open-session client)
    (setf (host-connections server) '())
    (check (handler-case (say client "" "LOGIN X")
             (connection-ended (condition) (error-text condition)))
           "it knows no such connection: No such connection."))
  (with-two-hosts (client server 13)
    (setf (link-other (host-link (client-network client))) nil)
    (check (handler-case (say client "" "LOGIN X")
             (no-reply (condition) (subseq (error-text condition) 0 23)))
           "no connection opened in"))
  (with-two-hosts (client server 13)
    (let* ((serve *while-waiting*)
           (*while-waiting* (lambda ()  ; until a file is open
                              (unless (some (lambda (conn) (session-handles (conn-user conn)))
                                            (host-connections server))
                                (funcall serve)
                                (flush server)))))
      (check (handler-case (put client "A" (make-octets 0))
               (unknown-outcome (condition) (subseq (error-text condition) 0 80)))
             "whether it was put isn't known, since its CLOSE got no reply: no reply came in 1")))
  (with-two-hosts (client server 13)
    (setf (client-contact client) "NONE")
    (check (handler-case (say client "" "LOGIN X")
             (connection-ended (condition) (error-text condition)))
           "it refused the connection: No server for this contact name.")
    (setf (host-contacts server) '("FILE" "NONE"))
    (check (say client "" "LOGIN X") "LOGIN X"))
  (check (text (text-octets (octets (map 'string #'code-char '(40 10 9 8 12 41))) t))
         (map 'string #'code-char '(40 141 137 136 140 41)))
  (check (handler-case (text-octets (hex "8D") t)
           (unfit (condition) (subseq (error-text condition) 0 9)))
         "a byte 8D"))

(defun run-tests ()
  (test-vectors)
  (test-sessions)
  (test-windows)
  (test-bundles)
  (test-chudp-vectors)
  (test-chudp-file)
  (test-chudp-faults)
  (test-next-hop)
  (test-dialogue)
  (test-files 0 13 '(0 1 447 448 449 100000))
  (test-files 0 64 '(100000))
  (test-files 0 1 '(5000))
  (dotimes (i #+sbcl 5 #-sbcl 1)
    (test-files 20 13 '(0 1 447 448 449 20000))
    (test-files 20 64 '(20000))
    (test-files 20 13 '(448 20000) :chudp))
  (test-ends))

(run-tests)
(format t "~d passed, ~d failed~%" *passed* *failed*)
