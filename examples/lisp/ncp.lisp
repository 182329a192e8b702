;;;; The client of FILE over the connections of this end: the functions of network.lisp.

(in-package :chaosnet)

(defparameter *patience* 15000 "Milliseconds without a reply: longer than a probe takes.")
(defparameter *opening-patience* 5000 "Milliseconds for an OPN; then another index is tried.")
(defparameter *openings* 3 "How often a connection is asked for.")
(defparameter *ending-patience* 2000 "Milliseconds for what answers an EOF.")

(defun open-client (&key address place server (login "LISPM") (window 64) (carriage 1)
                      (contact "FILE") bridge)
  "A client of the host SERVER, as \"401=127.0.0.1:9001\". It connects when it is first used."
  (let ((peer (peer-word server)))
    (make-client :server (first peer) :name login :contact contact
                 :network (make-host :address address :window window :version carriage
                                     :bridge bridge
                                     :link (open-link (place-word place) (list peer))))))

(defun close-client (client)
  "Ends the session, and closes the socket."
  (end-session client)
  (close-link (host-link (client-network client))))

(defmacro with-client ((client &rest options) &body body)
  "Runs BODY with a client, which is closed at its end: (with-client (c :address #o402
:place \"127.0.0.1:9002\" :server \"401=127.0.0.1:9001\") (get c \"A.LISP\"))."
  `(let ((,client (open-client ,@options)))
     (unwind-protect (progn ,@body) (close-client ,client))))

(defun ended (conn)
  (fail 'connection-ended
        (case (conn-state conn)
          (:closed (join "it " (if (conn-last-read conn) "closed" "refused") " the connection"))
          (:lost "it knows no such connection")
          (:answered "it answered in place of opening a connection")
          (:forwarded "it says to ask elsewhere")
          (t "its host is down"))
        (if (string= "" (conn-reason conn)) "" ": ") (conn-reason conn)))

(defun turn-until (conn patience what test)
  "Takes turns until TEST is true, for which it may read and write at CONN."
  (loop with begun = (moment)
        until (funcall test)
        do (unless (live-p conn) (ended conn))
           (let ((waited (- (moment) begun)))
             (when (> waited patience) (fail 'no-reply "no " what " in " (decimal waited) " ms")))
           (turn (conn-host conn))))

(defmethod connect ((network host) server contact)
  "A peer that still has a connection with the index of this one, of an older run, drops the
request: so it is made again with another index."
  (loop for left from *openings* downto 1
        do (let ((conn (request network server contact)))
             (handler-case
                 (progn (turn-until conn *opening-patience* "connection opened"
                                    (lambda () (open-p conn)))
                        (return conn))
               (chaosnet-error (condition)
                 (disconnect conn)
                 (when (or (= left 1) (typep condition 'connection-ended)) (error condition)))))))

(defmethod room-p ((conn connection) count)
  "Replies that are owed fit the own window, too."
  (and (may-write-p conn)
       (< count (min (conn-window conn) (length (conn-held conn))))))

(defmethod send-text ((conn connection) text)
  (turn-until conn *patience* "room came" (lambda () (may-write-p conn)))
  (write-item conn +data+ (octets text)))

(defmethod receive-text ((conn connection) waits)
  (when waits (turn-until conn *patience* "reply came" (lambda () (next-item conn))))
  (let ((packet (read-item conn)))
    (when packet
      (unless (data-opcode-p (pkt-opcode packet))
        (fail 'unexpected-reply "not an answer of FILE: " (text (pkt-data packet))))
      (text (pkt-data packet)))))

(defmethod finish ((conn connection))
  (when (may-write-p conn)
    (write-item conn +eof+ (make-octets 0))
    (handler-case (turn-until conn *ending-patience* "end" (lambda () (= 0 (outstanding conn))))
      (chaosnet-error () nil))))        ; a CLS or a LOS ends it as well

(defmethod disconnect ((conn connection))
  (close-connection conn)
  (flush (conn-host conn)))
