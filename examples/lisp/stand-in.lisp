;;;; A stand-in for the package CHAOS of a Lisp machine, for tests of lispm.lisp in SBCL:
;;;;   sbcl --script examples/lisp/stand-in.lisp [--chudp] ADDRESS UDP SERVER FORM ...
;;;; loads lispm.lisp and client.lisp as a Lisp machine does, evaluates each FORM and prints its
;;;; value. The host table has one name, "oz", for the SERVER. CHAOS stands over the connections of
;;;; this end, whose package is called NCP here, since lispm.lisp makes a package CHAOSNET.

(defparameter cl-user::*here* *load-truename*)

(defun cl-user::load-here (name)
  (load (merge-pathnames (concatenate 'string name ".lisp") cl-user::*here*)))

(mapc #'cl-user::load-here
      '("package" "packets" "datagrams" "chudp" "udp" "connection" "host" "words"))

(rename-package "CHAOSNET" "NCP")

(defpackage "CHAOS"
  (:use)
  (:export "CONNECT" "STATE" "MAY-TRANSMIT" "GET-PKT" "RETURN-PKT" "PKT-OPCODE" "PKT-NBYTES"
           "PKT-STRING" "SET-PKT-STRING" "SEND-PKT" "GET-NEXT-PKT" "FINISH-CONN" "CLOSE-CONN"
           "RFC-SENT-STATE" "OPEN-STATE" "CLS-RECEIVED-STATE" "LOS-RECEIVED-STATE"
           "ANSWERED-STATE" "FOREIGN-STATE" "HOST-DOWN-STATE" "INACTIVE-STATE"))

(in-package "NCP")

(defvar *host* nil "This Lisp machine.")
(defvar *names* '() "The host table: (name . address) of each.")

;;; Packets, of which there are so few that one that isn't returned is missed. What is returned is
;;; overwritten, so that a string of it that wasn't copied is found out.

(defstruct (buffer (:conc-name nil))
  (chaos:pkt-opcode 0)
  (chaos:pkt-nbytes 0)
  (chars (make-string +most-data+)))

(defparameter *free* (list (make-buffer) (make-buffer)))

(defun chaos:get-pkt ()
  (or (pop *free*) (error "There is no packet: some weren't returned.")))

(defun chaos:return-pkt (pkt)
  (when (member pkt *free*) (error "A packet was returned twice."))
  (fill (chars pkt) #\?)
  (push pkt *free*))

(defun chaos:pkt-string (pkt)
  (make-array (chaos:pkt-nbytes pkt) :element-type 'character :displaced-to (chars pkt)))

(defun chaos:set-pkt-string (pkt &rest strings)
  (let ((string (apply #'join strings)))
    (when (> (length string) +most-data+) (error "~D characters are too many." (length string)))
    (replace (chars pkt) string)
    (setf (chaos:pkt-nbytes pkt) (length string))))

(defun filled (opcode string)
  (let ((pkt (chaos:get-pkt)))
    (chaos:set-pkt-string pkt string)
    (setf (chaos:pkt-opcode pkt) opcode)
    pkt))

;;; Connections. A Lisp machine's have a process of their own: here they take turns in each wait.

(defparameter *states*
  '((:rfc-sent . chaos:rfc-sent-state) (:open . chaos:open-state)
    (:closed . chaos:cls-received-state) (:lost . chaos:los-received-state)
    (:answered . chaos:answered-state) (:forwarded . chaos:foreign-state)
    (:host-down . chaos:host-down-state) (:inactive . chaos:inactive-state)))

(defun chaos:state (conn) (cdr (assoc (conn-state conn) *states*)))

(defun wait-until (test &optional sixtieths)
  "Waits until TEST is true, or so many sixtieths of a second have passed."
  (loop with begun = (moment)
        until (or (funcall test) (and sixtieths (> (* 60 (- (moment) begun)) (* 1000 sixtieths))))
        do (turn *host*)))

(defun need-open (conn)
  (unless (open-p conn) (error "The connection is in ~A." (chaos:state conn))))

(defun chaos:connect (address contact-name &optional (window-size 13) (timeout 600))
  "A connection that is open, or a string that says why there is none."
  (let ((number (if (stringp address) (cdr (assoc address *names* :test #'string-equal)) address)))
    (if (null number)
        (format nil "~S is not a valid Chaosnet address" address)
        (let ((conn (progn (setf (host-window *host*) window-size)
                           (request *host* number contact-name))))
          (wait-until (lambda () (not (eq (conn-state conn) :rfc-sent))) timeout)
          (case (conn-state conn)
            (:open conn)
            (t (prog1 (case (conn-state conn)
                        (:rfc-sent "Host not responding")
                        (:answered "Received an ANS instead of an OPN")
                        (t (conn-reason conn)))
                 (chaos:close-conn conn))))))))

(defun chaos:may-transmit (conn) (may-write-p conn))

(defun chaos:send-pkt (conn pkt &optional (opcode +data+))
  (wait-until (lambda () (or (may-write-p conn) (not (open-p conn)))))
  (need-open conn)
  (write-item conn opcode (octets (chaos:pkt-string pkt)))
  (flush *host*)
  (chaos:return-pkt pkt))

(defun chaos:get-next-pkt (conn &optional no-hang-p)
  "The next packet that came; once the connection was closed, its CLS or LOS, once."
  (unless no-hang-p (wait-until (lambda () (or (next-item conn) (not (open-p conn))))))
  (let ((item (read-item conn)))
    (cond (item (filled (pkt-opcode item) (text (pkt-data item))))
          ((and (member (conn-state conn) '(:closed :lost)) (not (conn-user conn)))
           (setf (conn-user conn) :ended)
           (filled (if (eq (conn-state conn) :closed) +cls+ +los+) (conn-reason conn)))
          ((not no-hang-p) (need-open conn)))))

(defun chaos:finish-conn (conn)
  "Waits until all that was sent was receipted, or the connection isn't open."
  (wait-until (lambda () (or (null (conn-kept conn)) (not (open-p conn)))))
  (open-p conn))

(defun chaos:close-conn (conn &optional reason)
  (declare (ignore reason))
  (close-connection conn)
  (flush *host*))

;;; A run of the shell

(defun evaluate (forms)
  "Prints the value of each form, or what is wrong. Gives the status of the run."
  (let ((status 0) (*package* (find-package "CL-USER")))
    (dolist (form forms status)
      (handler-case (format t "~S~%" (eval (read-from-string form)))
        (error (condition)
          (setf status 3)
          (format t "error: ~A~%" (substitute #\Space #\Newline (princ-to-string condition)))))
      (unless (and (= 2 (length *free*)) (null (host-connections *host*)))
        (setf status 1)
        (format t "~S kept a packet or a connection~%" form)))))

(defun run-forms (words)
  (let ((version (if (string= "--chudp" (first words)) (progn (pop words) :chudp) 1)))
    (destructuring-bind (address place server &rest forms) words
      (let ((peer (peer-word server)))
        (setf *names* (list (cons "oz" (first peer)))
              *host* (make-host :address (address-word address) :version version
                                :link (open-link (place-word place) (list peer))))
        (evaluate forms)))))

(setf sb-impl::*default-external-format* :latin-1) ; files of the machine's own characters
(mapc #'cl-user::load-here '("lispm" "client"))

(let ((status (run-forms (rest sb-ext:*posix-argv*))))
  (finish-output)
  (sb-ext:exit :code status :abort t))
