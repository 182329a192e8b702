;;; -*- Mode: LISP; Package: CHAOSNET; Base: 10; Readtable: CL; Syntax: Common-Lisp -*-
;;;; The user's end of FILE: commands, many on their way, and whole files. docs/FILE.md. A Lisp
;;;; machine reads this file, too: so its forms are those of the first Common Lisp and of LOOP, and
;;;; of its network it knows the six functions of network.lisp alone.

(in-package :chaosnet)

(defconstant +most-octets+ 448 "Octets of a file in one READ or WRITE.")

(defstruct (client (:conc-name client-))
  network server contact                ; what CONNECT takes
  name                                  ; of the user
  (conn nil)
  (commands 0)                          ; how many were said
  (waiting nil))                        ; (names . what to do with the reply) of each, in order

(defun open-session (client)
  (setf (client-waiting client) nil
        (client-conn client)
        (connect (client-network client) (client-server client) (client-contact client))))

(defun drop-session (client)
  "Ends the session at once."
  (when (client-conn client)
    (disconnect (client-conn client))
    (setf (client-conn client) nil)))

(defun end-session (client)
  "Ends the session so that both ends know, where nothing is on its way."
  (when (and (client-conn client) (null (client-waiting client)))
    (finish (client-conn client)))
  (drop-session client))

;;; Commands and replies. A reply is a string that its names were taken off.

(defun send-command (client handle command then)
  "Sends a command; THEN is called with what the reply to it tells."
  (let* ((tid (decimal (setf (client-commands client)
                             (mod (1+ (client-commands client)) 10000000))))
         (names (join "T" tid " " handle " ")))
    (send-text (client-conn client) (join names command))
    (setf (client-waiting client) (append (client-waiting client) (list (cons names then))))))

(defun hear (client waits)
  "Handles one reply, where it came or WAITS is true, and is true then. Replies come in the order of
the commands."
  (let ((reply (receive-text (client-conn client) waits)))
    (when reply
      (let ((expected (pop (client-waiting client))))
        (unless (and expected (begins-p (car expected) reply))
          (fail 'unexpected-reply "not an answer of FILE: " reply))
        (funcall (cdr expected) (subseq reply (length (car expected))))
        t))))

(defun may-say-p (client)
  "May one more command be said? Where no reply is awaited, it waits for its room itself."
  (let ((count (length (client-waiting client))))
    (or (zerop count) (room-p (client-conn client) count))))

(defun converse (client handle next)
  "Says all commands that NEXT gives, each with a function for its reply, as many at once as the
windows let. NEXT gives nil where there is none left. A refusal ends the session, since a handle
may be open and replies may still come; the next command opens another one."
  (let ((more t))
    (flet ((take (reply then)
             (when (begins-p "ERROR " reply)
               (drop-session client)
               (fail 'refused (subseq reply 6)))
             (funcall then reply)))
      (loop
        (loop while (and more (may-say-p client))
              do (multiple-value-bind (command then) (funcall next)
                   (if command
                       (send-command client handle command
                                     #'(lambda (reply) (take reply then)))
                       (setf more nil))))
        (unless (or more (client-waiting client)) (return))
        (hear client t)
        (loop while (hear client nil))))))

(defun one-command (client handle command)
  "Says a command, and gives the reply to it."
  (let ((answer nil)
        (commands (list command)))
    (converse client handle
              #'(lambda () (values (pop commands) #'(lambda (reply) (setf answer reply)))))
    answer))

(defun want (reply &rest strings)
  (unless (string= reply (apply #'join strings))
    (fail 'unexpected-reply "not an answer of FILE: " reply)))

(defun say (client handle &rest strings)
  "One command of FILE, and what the reply to it tells. It opens a session where there is none."
  (unless (client-conn client)
    (open-session client)
    (let ((login (join "LOGIN " (client-name client))))
      (want (one-command client "" login) login)))
  (one-command client handle (apply #'join strings)))

;;; Texts: backspace, tab, newline and page are 10, 11, 12 and 14 here, and 210, 211, 215 and 214
;;; at the server, all in octal. On a Lisp machine both are the same, and this becomes nothing.

(defparameter *here-and-there* '((#o10 . #o210) (#o11 . #o211) (#o12 . #o215) (#o14 . #o214)))

(defun text-octets (octets to-there)
  "The octets of a text as the server has them; or, without TO-THERE, as they are here."
  (map '(vector octet)
       #'(lambda (octet)
           (let ((here (assoc octet *here-and-there*))
                 (there (rassoc octet *here-and-there*)))
             (when (if to-there there here)
               (fail 'unfit (format nil "a byte ~2,'0x" octet)
                     ", which --text would not give back; leave --text out"))
             (cond (here (cdr here)) (there (car there)) (t octet))))
       octets))

(defun told-length (reply)
  "The number of a reply OPEN N."
  (let ((length (and (begins-p "OPEN " reply) (parse-integer reply :start 5 :junk-allowed t))))
    (want reply "OPEN " (if length (decimal length) "N"))
    length))

(defun take-part (reply octets came)
  "Puts what the reply to a READ tells into OCTETS, of which so many came, and gives how many then."
  (let* ((end (min (length octets) (+ came +most-octets+)))
         (start (length (line "READ"))))
    (cond ((= came end) (want reply "EOF"))
          ((and (begins-p (line "READ") reply) (= (- (length reply) start) (- end came)))
           (replace octets (octets (subseq reply start)) :start1 came))
          (t (want reply "READ")))
    end))

(defun get (client path &key text)
  "The octets of the file at PATH of the server: where TEXT is true, as they are here."
  (let* ((length (told-length (say client "F" (line "OPEN READ") path)))
         (octets (make-octets length))
         (reads (1+ (ceiling length +most-octets+))) ; the last one finds the end
         (came 0))
    (converse client "F"
              #'(lambda ()
                  (when (<= 0 (decf reads))
                    (values "READ" #'(lambda (reply)
                                       (setf came (take-part reply octets came)))))))
    (want (say client "F" "CLOSE") "CLOSE " (decimal length))
    (if text (text-octets octets nil) octets)))

(defun put (client path octets &key text)
  "Makes OCTETS the content of the file at PATH: where TEXT is true, as they are at the server."
  (let* ((there (if text (text-octets octets t) octets))
         (length (length there))
         (said 0))
    (want (say client "F" (line "OPEN WRITE") path) "OPEN 0")
    (converse client "F"
              #'(lambda ()
                  (when (< said length)
                    (let* ((end (min length (+ said +most-octets+)))
                           (part (text (subseq there said end))))
                      (setf said end)
                      (values (join (line "WRITE") part)
                              #'(lambda (reply) (want reply "WRITE " (decimal end))))))))
    (let ((*in-doubt* t))
      (want (say client "F" "CLOSE") "CLOSE " (decimal length)))))
