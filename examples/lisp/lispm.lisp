;;; -*- Mode: LISP; Package: USER; Base: 10; Readtable: CL; Syntax: Common-Lisp -*-
;;;; Files from and to a chaosd, on a Lisp machine: (chaosd:get "oz" "A.LISP"). Load this file, then
;;;; client.lisp. It stands over the machine's own Chaosnet, the package CHAOS. LISPM.md says more.
;;;; No Lisp machine has run this file yet: it was tried in SBCL, over stand-in.lisp.

(defpackage "CHAOSNET"
  (:use #+(and lispm (not symbolics)) "GLOBAL" #-(and lispm (not symbolics)) "COMMON-LISP")
  (:shadow "GET"))

(defpackage "CHAOSD"
  (:use #+(and lispm (not symbolics)) "GLOBAL" #-(and lispm (not symbolics)) "COMMON-LISP")
  (:shadow "GET")
  (:export "GET" "PUT" "*CONTACT*" "*LOGIN*" "*WINDOW*"))

(in-package "CHAOSNET")

(defvar chaosd:*contact* "FILE" "The contact at which chaosd serves files.")
(defvar chaosd:*login* "LISPM" "The user's name: 1 to 16 letters and digits.")
(defvar chaosd:*window* 13 "How many packets and commands are on their way: no more than the
server's window has, which is 13 where nobody says else.")

;;; What client.lisp uses of package.lisp. An octet of a file is a character of the machine's own
;;; set, and octal 215 is its Return: so nothing is translated.

(defconstant +return+ (code-char #o215))

(defun octets (string) string)
(defun text (octets) octets)
(defun make-octets (count) (make-string count))

(defun join (&rest strings) (apply #'concatenate 'string strings))
(defun line (&rest strings) (join (apply #'join strings) (string +return+)))
(defun decimal (number) (format nil "~D" number))

(defun begins-p (front string)
  (and (<= (length front) (length string))
       (string= front string :end2 (length front))))

(defvar *in-doubt* nil "Is the file put, or isn't it, where no reply comes now?")

(defun fail (condition &rest strings)
  (error "~A~A"
         (if (and *in-doubt* (eq condition 'connection-ended))
             "whether it was put isn't known, since its CLOSE got no reply: "
             "")
         (apply #'join strings)))

;;; The six functions of network.lisp, over the machine's connections

(defun connect (network server contact)
  (declare (ignore network))
  (let ((conn (chaos:connect server contact chaosd:*window*)))
    (if (stringp conn)                  ; why there is none
        (fail 'connection-ended "no connection to " contact ": " conn)
        conn)))

(defun room-p (conn count)
  (and (< count chaosd:*window*)
       (chaos:may-transmit conn)))

(defun send-packet (conn text opcode)
  (let ((pkt (chaos:get-pkt)))
    (chaos:set-pkt-string pkt text)
    (chaos:send-pkt conn pkt opcode)))  ; which waits for room, and returns the packet

(defun send-text (conn text) (send-packet conn text #o200))

(defun receive-text (conn waits)
  (let ((pkt (chaos:get-next-pkt conn (not waits))))
    (when pkt
      (let ((opcode (chaos:pkt-opcode pkt))
            (text (subseq (chaos:pkt-string pkt) 0 (chaos:pkt-nbytes pkt)))) ; a copy
        (chaos:return-pkt pkt)
        (when (< opcode #o200)          ; EOF, CLS or LOS
          (fail 'connection-ended "the other host ended the connection: " text))
        text))))

(defun finish (conn)
  (when (eq (chaos:state conn) 'chaos:open-state)
    (send-packet conn "" #o14)          ; EOF
    (chaos:finish-conn conn)))          ; waits until all was receipted

(defun disconnect (conn) (chaos:close-conn conn))

;;; What a user calls. A file comes whole or not at all: it is in memory before it is written, and
;;; WITH-OPEN-FILE closes with :ABORT where it isn't left at its end.

(defun call-with-client (host function)
  "Calls FUNCTION with a client of HOST, and ends its session."
  (let ((client (make-client :server host :contact chaosd:*contact* :name chaosd:*login*)))
    (unwind-protect (prog1 (funcall function client)
                      (end-session client))
      (drop-session client))))

(defun chaosd:get (host path &optional (local path))
  "Copies the file PATH of HOST, a name or an address, to the file LOCAL. Gives the count of its
characters."
  (let ((text (call-with-client host #'(lambda (client) (get client path)))))
    (with-open-file (stream local :direction :output
                                  :if-exists #+lispm :new-version #-lispm :supersede)
      (write-string text stream))
    (length text)))

(defun local-text (local)
  "The characters of a file of this machine."
  (with-open-file (stream local :direction :input)
    (with-output-to-string (out)
      (do ((char (read-char stream nil nil) (read-char stream nil nil)))
          ((null char))
        (write-char char out)))))

(defun chaosd:put (host path &optional (local path))
  "Copies the file LOCAL to the file PATH of HOST. Gives the count of its characters."
  (let ((text (local-text local)))
    (call-with-client host #'(lambda (client) (put client path text)))
    (length text)))
